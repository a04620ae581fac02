/* A program that has the extension of SQLite built in, and loads no file:
 *
 *     cc -DSQLITE_CORE built_in.c num_format.c libnum_format.a -lsqlite3
 */
#include <sqlite3.h>
#include <stdio.h>

int sqlite3_numformat_init(sqlite3 *database, char **error, const struct sqlite3_api_routines *api);

int main(void) {
    sqlite3 *database;
    sqlite3_stmt *statement;
    sqlite3_auto_extension((void (*)(void))sqlite3_numformat_init);
    sqlite3_open(":memory:", &database);
    sqlite3_prepare_v2(database, "SELECT num_format(1234567, 'de'), '1.5' = '1.50' COLLATE num_decimal", -1, &statement, NULL);
    if (sqlite3_step(statement) == SQLITE_ROW)
        printf("%s %d\n", sqlite3_column_text(statement, 0), sqlite3_column_int(statement, 1));
    sqlite3_finalize(statement);
    return sqlite3_close(database);
}
