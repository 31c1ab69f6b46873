/* Runs statements by the msi.dll of Wine, for tools/check-sql. A line of standard input is a job, with tabs between
   its fields: the path of a package, R where rows are wanted or W, a statement, and the values of its marks. \n, \r, \t
   and \\ stand for these characters. A value begins with i for a number, t for a text, and s for the path of a stream's
   file. An answer is a line `refused CODE`, or `done`, or `rows NAMES..` with a line `row VALUES..` for each and a last
   one `end`, in the same form; n is null. */
#define UNICODE
#include <windows.h>
#include <msi.h>
#include <msiquery.h>
#include <stdio.h>
#include <stdlib.h>
#include <string.h>

static WCHAR *wide(const char *text) {
    int count = MultiByteToWideChar(CP_UTF8, 0, text, -1, NULL, 0);
    WCHAR *made = malloc(count * sizeof *made);
    MultiByteToWideChar(CP_UTF8, 0, text, -1, made, count);
    return made;
}

static void unescape(char *text) {
    char *to = text;
    for (; *text; text++) {
        if (*text == '\\') { text++; *to++ = *text == 'n' ? '\n' : *text == 'r' ? '\r' : *text == 't' ? '\t' : *text; }
        else *to++ = *text;
    }
    *to = 0;
}

static void print(const WCHAR *text) {
    int count = WideCharToMultiByte(CP_UTF8, 0, text, -1, NULL, 0, NULL, NULL);
    char *made = malloc(count), *it = made;
    WideCharToMultiByte(CP_UTF8, 0, text, -1, made, count, NULL, NULL);
    for (; *it; it++) {
        if (*it == '\n') fputs("\\n", stdout);
        else if (*it == '\r') fputs("\\r", stdout);
        else if (*it == '\t') fputs("\\t", stdout);
        else if (*it == '\\') fputs("\\\\", stdout);
        else putchar(*it);
    }
    free(made);
}

static WCHAR *text_of(MSIHANDLE record, UINT field) {
    DWORD count = 0;
    WCHAR none[1], *made;
    MsiRecordGetStringW(record, field, none, &count);
    made = calloc(++count, sizeof *made);
    MsiRecordGetStringW(record, field, made, &count);
    return made;
}

static void print_row(MSIHANDLE record, MSIHANDLE types) {
    UINT i, count = MsiRecordGetFieldCount(record);
    fputs("row", stdout);
    for (i = 1; i <= count; i++) {
        WCHAR *type = text_of(types, i), *text;
        if (wcschr(L"vV", type[0])) {
            char piece[1024]; DWORD size = sizeof piece;
            fputs(MsiRecordReadStream(record, i, piece, &size) ? "\tn" : "\ts", stdout);
        }
        else if (MsiRecordIsNull(record, i)) fputs("\tn", stdout);
        else if (wcschr(L"iIjJ", type[0])) printf("\ti%d", MsiRecordGetInteger(record, i));
        else { text = text_of(record, i); fputs("\tt", stdout); print(text); free(text); }
        free(type);
    }
    putchar('\n');
}

static UINT run(MSIHANDLE database, const char *statement, MSIHANDLE values, int selects) {
    MSIHANDLE view, names, types, record;
    WCHAR *text = wide(statement);
    UINT i, code = MsiDatabaseOpenViewW(database, text, &view);
    free(text);
    if (code) return code;
    code = MsiViewExecute(view, values);
    if (!code && selects) {
        code = MsiViewGetColumnInfo(view, MSICOLINFO_NAMES, &names);
        if (code) return code;
        MsiViewGetColumnInfo(view, MSICOLINFO_TYPES, &types);
        fputs("rows", stdout);
        for (i = 1; i <= MsiRecordGetFieldCount(names); i++) {
            text = text_of(names, i);
            putchar('\t');
            print(text);
            free(text);
        }
        putchar('\n');
        while (!(code = MsiViewFetch(view, &record))) { print_row(record, types); MsiCloseHandle(record); }
        puts(code == ERROR_NO_MORE_ITEMS ? "end" : "failed");
        code = 0;
        MsiCloseHandle(names); MsiCloseHandle(types);
    }
    MsiViewClose(view);
    MsiCloseHandle(view);
    return code;
}

static MSIHANDLE record_of(char **fields, int count) {
    MSIHANDLE record = MsiCreateRecord(count);
    for (int i = 0; i < count; i++) {
        WCHAR *text = wide(fields[i] + 1);
        if (fields[i][0] == 'i') MsiRecordSetInteger(record, i + 1, atoi(fields[i] + 1));
        else if (fields[i][0] == 't') MsiRecordSetStringW(record, i + 1, text);
        else MsiRecordSetStreamW(record, i + 1, text);
        free(text);
    }
    return record;
}

static void answer(char **fields, int count) {
    MSIHANDLE database, values = 0;
    WCHAR *path = wide(fields[0]);
    int selects = fields[1][0] == 'R';
    UINT code = MsiOpenDatabaseW(path, MSIDBOPEN_DIRECT, &database);
    free(path);
    if (code) { printf("refused\t%u\n", code); return; }
    if (count > 3) values = record_of(fields + 3, count - 3);
    code = run(database, fields[2], values, selects);
    if (!code) code = MsiDatabaseCommit(database);
    MsiCloseHandle(values);
    MsiCloseHandle(database);
    if (code) printf("refused\t%u\n", code);
    else if (!selects) puts("done");
}

int main(void) {
    static char line[65536];
    char *fields[32];
    while (fgets(line, sizeof line, stdin)) {
        int count = 0;
        char *it = line;
        line[strcspn(line, "\r\n")] = 0;
        while (count < 32) {
            fields[count++] = it;
            if (!(it = strchr(it, '\t'))) break;
            *it++ = 0;
        }
        for (int i = 0; i < count; i++) unescape(fields[i]);
        answer(fields, count);
        fflush(stdout);
    }
    return 0;
}
