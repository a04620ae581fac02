/*
 * num-format in PostgreSQL: numbers as a locale prints them, and back.
 *
 * The calls of num_format.h print and parse.  This file converts values
 * and encodings, keeps the format of the last locale of each call in a
 * query, lets integers pass without a cast to numeric, and words the errors.
 */
#include "postgres.h"

#include "catalog/namespace.h"
#include "catalog/pg_type.h"
#include "fmgr.h"
#include "lib/stringinfo.h"
#include "mb/pg_wchar.h"
#include "nodes/makefuncs.h"
#include "nodes/nodeFuncs.h"
#include "nodes/supportnodes.h"
#include "port/pg_bswap.h"
#include "utils/builtins.h"
#include "utils/fmgroids.h"
#include "utils/memutils.h"
#if PG_VERSION_NUM >= 160000
#include "varatt.h"
#endif

#include "num_format.h"

PG_MODULE_MAGIC;

PG_FUNCTION_INFO_V1(num_format_number);
PG_FUNCTION_INFO_V1(num_format_support);
PG_FUNCTION_INFO_V1(num_parse);
PG_FUNCTION_INFO_V1(num_parse_decimal);
PG_FUNCTION_INFO_V1(num_try_parse);
PG_FUNCTION_INFO_V1(num_try_parse_decimal);
PG_FUNCTION_INFO_V1(num_parse_typed);
PG_FUNCTION_INFO_V1(num_parse_typed_decimal);
PG_FUNCTION_INFO_V1(num_try_parse_typed);
PG_FUNCTION_INFO_V1(num_try_parse_typed_decimal);
PG_FUNCTION_INFO_V1(num_locale);
PG_FUNCTION_INFO_V1(num_format_library_version);

/* The most characters of a text that a message shows. */
#define SHOWN 100

/* Numbers as SQL writes them, as -1234.50. */
static const num_format plain = {
	.minus_sign = "-",
	.decimal_mark = ".",
	.minus_sign_length = 1,
	.decimal_mark_length = 1,
	.grouping = NUM_FORMAT_POSIX,
};

/*
 * The format of a locale, kept with a call for as long as its query runs, and
 * whether argument 0 of the call is a bigint: see num_format_support.
 */
typedef struct KeptFormat
{
	num_format	format;
	bool		is_bigint;
	int			length;
	char		name[NUM_FORMAT_MAX];
} KeptFormat;

/* A text in UTF-8, whatever the encoding of the database. */
typedef struct Utf8
{
	const char *bytes;
	size_t		length;
} Utf8;

/* Returns whether the bytes are ASCII, and so the same in each encoding that a database may have. */
static bool
is_ascii(const char *bytes, size_t length)
{
	for (size_t i = 0; i < length; i++)
		if (IS_HIGHBIT_SET(bytes[i]))
			return false;
	return true;
}

/* Returns a text of the database's encoding in UTF-8, or NULL where it cannot be converted. */
static char *
try_converted(char *bytes, int length)
{
	int			encoding = GetDatabaseEncoding();
	Oid			conversion = FindDefaultConversionProc(encoding, PG_UTF8);
	int			capacity = length * MAX_CONVERSION_GROWTH + 1;
	char	   *converted;

	if (!OidIsValid(conversion))
		return NULL;
	converted = palloc(capacity);
	if (pg_do_encoding_conversion_buf(conversion, encoding, PG_UTF8, (unsigned char *) bytes, length,
									  (unsigned char *) converted, capacity, true) < length)
		return NULL;
	return converted;
}

/*
 * Writes an argument in UTF-8, and returns true.  Where it cannot be
 * converted, this is an error, or with is_try returns false.
 */
static bool
utf8_argument(FunctionCallInfo fcinfo, int i, bool is_try, Utf8 *utf8)
{
	text	   *argument = PG_GETARG_TEXT_PP(i);
	char	   *bytes = VARDATA_ANY(argument);
	int			length = VARSIZE_ANY_EXHDR(argument);

	*utf8 = (Utf8) {bytes, length};
	if (GetDatabaseEncoding() == PG_UTF8 || is_ascii(bytes, length))
		return true;
	if (GetDatabaseEncoding() == PG_SQL_ASCII)
		return pg_verify_mbstr(PG_UTF8, bytes, length, is_try);
	if (is_try && length >= MaxAllocSize / MAX_CONVERSION_GROWTH)
		return false;
	utf8->bytes = is_try ? try_converted(bytes, length) : pg_server_to_any(bytes, length, PG_UTF8);
	utf8->length = utf8->bytes ? strlen(utf8->bytes) : 0;
	return utf8->bytes != NULL;
}

/* Returns the start of a text in the database's encoding, to be shown. */
static char *
shown(const char *bytes, int length)
{
	int			clipped = pg_mbcharcliplen(bytes, length, SHOWN);

	return psprintf("%.*s%s", clipped, bytes, clipped < length ? "..." : "");
}

static char *
shown_argument(FunctionCallInfo fcinfo, int i)
{
	text	   *argument = PG_GETARG_TEXT_PP(i);

	return shown(VARDATA_ANY(argument), VARSIZE_ANY_EXHDR(argument));
}

/* Returns the format of the locale for the name or tag in argument 1, as it is kept. */
static const KeptFormat *
locale_format(FunctionCallInfo fcinfo)
{
	text	   *argument = PG_GETARG_TEXT_PP(1);
	const char *name = VARDATA_ANY(argument);
	int			length = VARSIZE_ANY_EXHDR(argument);
	KeptFormat *kept = fcinfo->flinfo->fn_extra;

	if (kept == NULL)
	{
		kept = MemoryContextAllocZero(fcinfo->flinfo->fn_mcxt, sizeof(KeptFormat));
		kept->is_bigint = get_fn_expr_argtype(fcinfo->flinfo, 0) == INT8OID;
		fcinfo->flinfo->fn_extra = kept;
	}
	if (length == 0 || length != kept->length || memcmp(name, kept->name, length) != 0)
	{
		Utf8		tag;
		int			status;

		utf8_argument(fcinfo, 1, false, &tag);
		status = num_format_lookup(&kept->format, tag.bytes, tag.length);
		if (status != 0)
			ereport(ERROR,
					(errcode(ERRCODE_INVALID_PARAMETER_VALUE),
					 status == NUM_FORMAT_UNKNOWN_DIGITS ?
					 errmsg("no digit set is named by the language tag \"%s\"", shown_argument(fcinfo, 1)) :
					 errmsg("no locale has the name or language tag \"%s\"", shown_argument(fcinfo, 1))));
		kept->length = length <= NUM_FORMAT_MAX ? length : 0;
		memcpy(kept->name, name, kept->length);
	}
	return kept;
}

/* Returns the text that was printed in UTF-8. */
static Datum
printed_text(const char *printed, int length)
{
	const char *converted = is_ascii(printed, length) ? printed : pg_any_to_server(printed, length, PG_UTF8);

	if (converted != printed)
		length = strlen(converted);
	return PointerGetDatum(cstring_to_text_with_len(converted, length));
}

/*
 * Plans num_format(number::numeric, locale) of an integer as a call of the
 * same function, with the number as a bigint in place of the numeric that is
 * declared.  num_format_number sees the type.  No other function is called,
 * so rights are those of num_format.
 */
Datum
num_format_support(PG_FUNCTION_ARGS)
{
	Node	   *request = (Node *) PG_GETARG_POINTER(0);
	FuncExpr   *call,
			   *cast;
	Node	   *number;

	if (!IsA(request, SupportRequestSimplify))
		PG_RETURN_POINTER(NULL);
	call = ((SupportRequestSimplify *) request)->fcall;
	cast = (FuncExpr *) linitial(call->args);
	if (!IsA(cast, FuncExpr) || (cast->funcid != F_NUMERIC_INT2 && cast->funcid != F_NUMERIC_INT4 && cast->funcid != F_NUMERIC_INT8))
		PG_RETURN_POINTER(NULL);
	number = linitial(cast->args);
	if (cast->funcid != F_NUMERIC_INT8)
		number = (Node *) makeFuncExpr(cast->funcid == F_NUMERIC_INT4 ? F_INT8_INT4 : F_INT8_INT2, INT8OID,
									   list_make1(number), InvalidOid, InvalidOid, COERCE_IMPLICIT_CAST);
	if (exprType(number) != INT8OID)
		PG_RETURN_POINTER(NULL);
	PG_RETURN_POINTER(makeFuncExpr(call->funcid, call->funcresulttype, list_make2(number, lsecond(call->args)),
								   call->funccollid, call->inputcollid, COERCE_EXPLICIT_CALL));
}

/* A bigint is printed at once. A numeric goes by its text as SQL writes it, which has the decimals of its scale. */
Datum
num_format_number(PG_FUNCTION_ARGS)
{
	const KeptFormat *kept = locale_format(fcinfo);
	char		printed[NUM_FORMAT_DIGITS_MAX];
	char	   *number;
	uint64_t	low,
				high;
	uint32_t	scale;
	size_t		at;
	int			status;

	if (kept->is_bigint)
		return printed_text(printed, num_format_print_i64(&kept->format, PG_GETARG_INT64(0), printed, sizeof(printed)));
	number = DatumGetCString(DirectFunctionCall1(numeric_out, PG_GETARG_DATUM(0)));
	status = num_format_parse_decimal(&plain, number, strlen(number), &low, &high, &scale, &at);
	if (status != 0)
		ereport(ERROR,
				(errcode(ERRCODE_NUMERIC_VALUE_OUT_OF_RANGE),
				 errmsg("value \"%s\" is out of range for num_format", shown(number, strlen(number))),
				 status == NUM_FORMAT_OUT_OF_RANGE ?
				 errdetail("It needs more than 127 bits.") :
				 status == NUM_FORMAT_TOO_MANY_DECIMALS ?
				 errdetail("It has more than 38 decimals.") :
				 errdetail("It is not finite.")));
	return printed_text(printed, num_format_print_decimal(&kept->format, low, high, scale, printed, sizeof(printed)));
}

/* Returns the place of the character that begins after so many bytes, counted from 1 as substr does. */
static int
place_of(Utf8 utf8, size_t at)
{
	int			place = 1;

	for (size_t i = 0; i < at; i++)
		place += (utf8.bytes[i] & 0xc0) != 0x80;
	return place;
}

/*
 * Returns the text that the locale prints of the number for which a text is
 * typed, or no text.  A whole number is looked for where no scale is.
 */
static int
typed_text(const num_format *format, Utf8 utf8, bool is_whole, char printed[NUM_FORMAT_DIGITS_MAX])
{
	uint64_t	low,
				high;
	uint32_t	scale;
	size_t		at;

	if (num_format_parse_typed_decimal(format, utf8.bytes, utf8.length, &low, &high, &scale, &at) != 0 ||
		(is_whole && scale > 0))
		return 0;
	return num_format_print_decimal(format, low, high, scale, printed, NUM_FORMAT_DIGITS_MAX);
}

/* Returns whether a text begins with a digit, which is a number by itself. */
static bool
begins_with_digit(const num_format *format, const char *text)
{
	int64		number;
	size_t		at;

	return num_format_parse_strict_i64(format, 64, text, pg_utf_mblen((const unsigned char *) text), &number, &at) == 0;
}

/*
 * Reports why argument 0 was refused under the locale in argument 1 as a
 * number of the type, which has so many bits and a sign.
 */
static void
refuse(FunctionCallInfo fcinfo, Utf8 utf8, bool is_typed, const char *type, int bits, int status, size_t at)
{
	char	   *given = shown_argument(fcinfo, 0);
	bool		is_whole = strcmp(type, "bigint") == 0;
	const num_format *format = &locale_format(fcinfo)->format;
	char		printed[NUM_FORMAT_DIGITS_MAX];
	int			length = is_typed ? 0 : typed_text(format, utf8, is_whole, printed);
	const char *wanted = "";

	if (status == NUM_FORMAT_OUT_OF_RANGE || status == NUM_FORMAT_TOO_MANY_DECIMALS)
		ereport(ERROR,
				(errcode(ERRCODE_NUMERIC_VALUE_OUT_OF_RANGE),
				 errmsg("value \"%s\" is out of range for type %s", given, type),
				 status == NUM_FORMAT_OUT_OF_RANGE ?
				 errdetail("It needs more than %d bits.", bits) :
				 errdetail("It has more than 38 decimals.")));
	if (status == NUM_FORMAT_UNEXPECTED && length > (int) at && memcmp(printed, utf8.bytes, at) == 0 &&
		!begins_with_digit(format, printed + at))
		wanted = psprintf(", in place of U+%04X", utf8_to_unicode((const unsigned char *) printed + at));
	ereport(ERROR,
			(errcode(ERRCODE_INVALID_TEXT_REPRESENTATION),
			 errmsg("invalid input syntax for type %s under locale \"%s\": \"%s\"",
					type, shown_argument(fcinfo, 1), given),
			 status == NUM_FORMAT_UNEXPECTED ?
			 errdetail("Character %d, U+%04X, is unexpected%s.", place_of(utf8, at),
					   utf8_to_unicode((const unsigned char *) utf8.bytes + at), wanted) :
			 status == NUM_FORMAT_OTHER_NUMERAL ?
			 errdetail("Character %d, U+%04X, is a numeral of another digit set.", place_of(utf8, at),
					   utf8_to_unicode((const unsigned char *) utf8.bytes + at)) :
			 status == NUM_FORMAT_TEXT_TOO_LONG ?
			 errdetail("It is longer than the text of any number.") :
			 status == NUM_FORMAT_NO_DIGIT ?
			 errdetail("It has no digit.") :
			 errdetail("It is not as the number is printed."),
			 length > 0 ? errhint("%s reads it.", is_whole ? "num_parse_typed" : "num_parse_typed_decimal") : 0));
}

/* Parses argument 0, strictly or as a person types it. A text that is refused is an error, or null. */
static Datum
parse(FunctionCallInfo fcinfo, bool is_typed, bool is_try)
{
	const num_format *format = &locale_format(fcinfo)->format;
	Utf8		utf8;
	int64		number;
	size_t		at = 0;
	int			status;

	if (!utf8_argument(fcinfo, 0, is_try, &utf8))
		PG_RETURN_NULL();
	status = is_typed ?
		num_format_parse_typed(format, NUM_FORMAT_I64, utf8.bytes, utf8.length, &number, sizeof(number), &at) :
		num_format_parse_strict_i64(format, 64, utf8.bytes, utf8.length, &number, &at);
	if (status != 0 && is_try)
		PG_RETURN_NULL();
	if (status != 0)
		refuse(fcinfo, utf8, is_typed, "bigint", 63, status, at);
	PG_RETURN_INT64(number);
}

/*
 * Returns the numeric of units at a scale.  It is received in its binary
 * form: how many digits of base 10,000 there are, the power of the first one,
 * the sign, the scale and the digits, of which one begins at the mark.
 */
static Datum
numeric_of(int64 units, uint32 scale)
{
	static const int powers[] = {1, 10, 100, 1000};
	uint64		rest = units < 0 ? -(uint64) units : units;
	int			after = (scale + 3) / 4;
	int			power = powers[4 * after - scale];
	uint16		form[10];
	uint16	   *end = form + lengthof(form);
	uint16	   *first = end;
	StringInfoData message;

	*--first = pg_hton16(rest % (10000 / power) * power);
	for (rest /= 10000 / power; rest > 0; rest /= 10000)
		*--first = pg_hton16(rest % 10000);
	first -= 4;
	first[0] = pg_hton16(end - first - 4);
	first[1] = pg_hton16(end - first - 5 - after);
	first[2] = pg_hton16(units < 0 ? 0x4000 : 0);
	first[3] = pg_hton16(scale);
	message = (StringInfoData) {.data = (char *) first, .len = (end - first) * sizeof(*first)};
	return DirectFunctionCall3(numeric_recv, PointerGetDatum(&message), ObjectIdGetDatum(InvalidOid), Int32GetDatum(-1));
}

/* The same as a decimal. */
static Datum
parse_decimal(FunctionCallInfo fcinfo, bool is_typed, bool is_try)
{
	const num_format *format = &locale_format(fcinfo)->format;
	Utf8		utf8;
	uint64_t	low,
				high;
	uint32_t	scale;
	size_t		at = 0;
	int			status;
	char		number[NUM_FORMAT_DECIMAL_MAX + 1];

	if (!utf8_argument(fcinfo, 0, is_try, &utf8))
		PG_RETURN_NULL();
	status = (is_typed ? num_format_parse_typed_decimal : num_format_parse_decimal) (format, utf8.bytes, utf8.length,
																					 &low, &high, &scale, &at);
	if (status != 0 && is_try)
		PG_RETURN_NULL();
	if (status != 0)
		refuse(fcinfo, utf8, is_typed, "numeric", 127, status, at);
	/* Other units than those of 64 bits make a numeric by their text. */
	if (high == ((int64) low < 0 ? PG_UINT64_MAX : 0))
		PG_RETURN_DATUM(numeric_of((int64) low, scale));
	number[num_format_print_decimal(&plain, low, high, scale, number, NUM_FORMAT_DECIMAL_MAX)] = '\0';
	PG_RETURN_DATUM(DirectFunctionCall3(numeric_in, CStringGetDatum(number), ObjectIdGetDatum(InvalidOid),
										Int32GetDatum(-1)));
}

#define PARSING(name, parse, is_typed, is_try) \
	Datum name(PG_FUNCTION_ARGS) { return parse(fcinfo, is_typed, is_try); }

PARSING(num_parse, parse, false, false)
PARSING(num_try_parse, parse, false, true)
PARSING(num_parse_typed, parse, true, false)
PARSING(num_try_parse_typed, parse, true, true)
PARSING(num_parse_decimal, parse_decimal, false, false)
PARSING(num_try_parse_decimal, parse_decimal, false, true)
PARSING(num_parse_typed_decimal, parse_decimal, true, false)
PARSING(num_try_parse_typed_decimal, parse_decimal, true, true)

/* Null is returned where the tag is of no locale. One that names unknown digits is refused. */
Datum
num_locale(PG_FUNCTION_ARGS)
{
	Utf8		tag;
	char		name[NUM_FORMAT_MAX];
	int			length;

	if (!utf8_argument(fcinfo, 0, true, &tag))
		PG_RETURN_NULL();
	length = num_format_lookup_name(tag.bytes, tag.length, name, sizeof(name));
	if (length == NUM_FORMAT_UNKNOWN_DIGITS)
		ereport(ERROR,
				(errcode(ERRCODE_INVALID_PARAMETER_VALUE),
				 errmsg("no digit set is named by the language tag \"%s\"", shown_argument(fcinfo, 0))));
	if (length < 0)
		PG_RETURN_NULL();
	/* Names are ASCII, so they are the same in each encoding. */
	PG_RETURN_TEXT_P(cstring_to_text_with_len(name, length));
}

Datum
num_format_library_version(PG_FUNCTION_ARGS)
{
	uint32_t	version = num_format_version();

	PG_RETURN_TEXT_P(cstring_to_text(psprintf("%u.%u.%u", version / 10000, version / 100 % 100, version % 100)));
}
