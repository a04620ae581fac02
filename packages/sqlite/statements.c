/* Runs statements over the extension of SQLite as the program sqlite3 cannot: one statement again with other
 * values bound, and each with every request for memory counted, or refused in turn.
 *
 *     cc statements.c -lsqlite3 && ./a.out ./num_format.so
 *
 * Prints each check that fails. The exit status is 1 where one failed.
 */
#include <sqlite3.h>
#include <stdio.h>
#include <string.h>

static int status;

static void fail(const char *what, const char *found) {
    printf("%s: %s\n", what, found ? found : "nothing");
    status = 1;
}

/* How many requests for memory are granted before one is refused, and whether one was. */
static long granted;
static int is_refused;
static sqlite3_mem_methods methods;

static int refuses(void) {
    if (granted-- != 0)
        return 0;
    return is_refused = 1;
}

static void *refusing_malloc(int size) {
    return refuses() ? NULL : methods.xMalloc(size);
}

static void *refusing_realloc(void *memory, int size) {
    return refuses() ? NULL : methods.xRealloc(memory, size);
}

/* Opens a database with the extension, if there is memory for it. */
static sqlite3 *opened(const char *extension, long requests) {
    sqlite3 *database;
    granted = -1;
    is_refused = 0;
    sqlite3_open(":memory:", &database);
    sqlite3_enable_load_extension(database, 1);
    granted = requests;
    sqlite3_load_extension(database, extension, NULL, NULL);
    return database;
}

/* Runs the query, whose result is expected. It may fail where memory was refused. */
static void run(const char *extension, const char *query, const char *expected, long requests) {
    sqlite3 *database = opened(extension, requests);
    sqlite3_stmt *statement = NULL;
    sqlite3_prepare_v2(database, query, -1, &statement, NULL);
    const char *found = NULL;
    if (sqlite3_step(statement) == SQLITE_ROW)
        found = (const char *)sqlite3_column_text(statement, 0);
    else if (!is_refused)
        found = sqlite3_errmsg(database);
    if (found ? strcmp(found, expected) != 0 : !is_refused)
        fail(query, found);
    sqlite3_finalize(statement);
    sqlite3_close(database);
}

/* Runs the query with each of its requests refused, and at last with none. */
static void refuse_memory(const char *extension, const char *query, const char *expected) {
    long requests = 0;
    do
        run(extension, query, expected, requests++);
    while (is_refused);
    if (requests < 10)
        fail(query, "there were hardly any requests for memory");
}

/* Runs one statement with each locale bound, and no other change. */
static void bind_again(const char *extension) {
    static const struct {
        const char *locale, *expected;
    } bound[] = {{"de", "1.234.567"}, {"en", "1,234,567"}, {"hi", "12,34,567"}, {"de", "1.234.567"}};
    sqlite3 *database = opened(extension, -1);
    sqlite3_stmt *statement;
    sqlite3_prepare_v2(database, "SELECT num_format(1234567, ?)", -1, &statement, NULL);
    for (size_t i = 0; i < sizeof bound / sizeof *bound; i++) {
        sqlite3_reset(statement);
        sqlite3_bind_text(statement, 1, bound[i].locale, -1, SQLITE_STATIC);
        sqlite3_step(statement);
        const char *text = (const char *)sqlite3_column_text(statement, 0);
        if (!text || strcmp(text, bound[i].expected) != 0)
            fail(bound[i].locale, text);
    }
    sqlite3_finalize(statement);
    sqlite3_close(database);
}

/* The format of a constant locale is kept: of a thousand rows, not each makes a request for memory. */
static void keep_format(const char *extension) {
    static const char query[] = "SELECT count(num_format(n, 'de')) FROM rows";
    sqlite3 *database = opened(extension, -1);
    sqlite3_stmt *statement;
    sqlite3_exec(database, "CREATE TABLE rows AS WITH RECURSIVE r(n) AS (SELECT 1 UNION ALL SELECT n + 1 FROM r "
                           "WHERE n < 1000) SELECT n FROM r", NULL, NULL, NULL);
    sqlite3_prepare_v2(database, query, -1, &statement, NULL);
    granted = -1;
    if (sqlite3_step(statement) != SQLITE_ROW || sqlite3_column_int(statement, 0) != 1000)
        fail(query, sqlite3_errmsg(database));
    if (granted < -500)
        fail(query, "a request for memory for each row");
    sqlite3_finalize(statement);
    sqlite3_close(database);
}

int main(int count, char **words) {
    if (count != 2)
        return 2;
    sqlite3_config(SQLITE_CONFIG_GETMALLOC, &methods);
    sqlite3_mem_methods refusing = methods;
    refusing.xMalloc = refusing_malloc;
    refusing.xRealloc = refusing_realloc;
    sqlite3_config(SQLITE_CONFIG_MALLOC, &refusing);
    bind_again(words[1]);
    keep_format(words[1]);
    refuse_memory(words[1], "SELECT num_format('1234.50', 'de')", "1.234,50");
    refuse_memory(words[1], "SELECT num_locale('de_DE.UTF-8')", "de");
    refuse_memory(words[1], "SELECT num_parse_decimal('1.234,50', 'de')", "1234.50");
    refuse_memory(words[1], "SELECT num_parse('12.50', 'en')",
                  "num_parse: '12.50' is no number in en: character 3, U+002E, is unexpected");
    return status;
}
