CREATE EXTENSION num_format;
SELECT num_format(1234567, 'de'), num_format(-1234567::bigint, 'hi'), num_format(1234.50, 'de_DE.UTF-8');
SELECT num_format('1234.50', 'de'), num_format(NULL, 'de') IS NULL;
SELECT num_parse('1.234.567', 'de'), num_parse_decimal('1.234,50', 'de'), num_try_parse('1,5', 'de') IS NULL;
SELECT num_locale('de_DE.UTF-8'), num_parse(text => '5', locale => 'en');
SELECT num_parse('12x', 'de');
SELECT num_format(1, 'nowhere');
DROP EXTENSION num_format;
