/* Applies transforms by the msi.dll of Wine, for tools/check-transforms. A line of standard input is a job: the path of
   a package, a tab, and that of a transform, in UTF-8. The package is changed in place. An answer is a line with the
   codes of opening, applying and committing, 0 for success; there is none of what isn't reached. */
#define UNICODE
#include <windows.h>
#include <msi.h>
#include <msiquery.h>
#include <stdio.h>
#include <stdlib.h>
#include <string.h>

static WCHAR *wide(const char *text) {
    int count = MultiByteToWideChar(CP_UTF8, 0, text, -1, NULL, 0);
    WCHAR *made = malloc(count * sizeof *made);
    MultiByteToWideChar(CP_UTF8, 0, text, -1, made, count);
    return made;
}

static void run(const char *package, const char *transform) {
    WCHAR *path = wide(package), *changes = wide(transform);
    MSIHANDLE database;
    /* (a package that is opened as a transaction gets links to free entries where a stream becomes empty) */
    UINT code = MsiOpenDatabaseW(path, MSIDBOPEN_DIRECT, &database);
    printf("%u", code);
    if (!code) {
        printf(" %u", MsiDatabaseApplyTransformW(database, changes, 0));
        printf(" %u", MsiDatabaseCommit(database));
        MsiCloseHandle(database);
    }
    putchar('\n');
    fflush(stdout);
    free(path);
    free(changes);
}

int main(void) {
    static char line[8192];
    while (fgets(line, sizeof line, stdin)) {
        char *tab = strchr(line, '\t');
        line[strcspn(line, "\r\n")] = 0;
        if (!tab) return 2;
        *tab = 0;
        run(line, tab + 1);
    }
    return 0;
}
