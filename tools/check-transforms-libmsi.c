/* Applies transforms by libmsi, for tools/check-transforms. A line of standard input is a job: the path of a package,
   a tab, and that of a transform. The package is changed in place. An answer is a line with the codes of opening,
   applying and committing, 0 for success; there is none of what isn't reached. */
#include <libmsi.h>
#include <stdio.h>
#include <string.h>

/* Returns the code of an error, and frees it. */
static int code_of(GError *error) {
    int code = error ? error->code : 0;
    g_clear_error(&error);
    return code;
}

static void run(const char *package, const char *transform) {
    GError *error = NULL;
    LibmsiDatabase *database = libmsi_database_new(package, LIBMSI_DB_FLAGS_TRANSACT, NULL, &error);
    printf("%d", code_of(error));
    if (database) {
        error = NULL;
        libmsi_database_apply_transform(database, transform, &error);
        printf(" %d", code_of(error));
        error = NULL;
        libmsi_database_commit(database, &error);
        printf(" %d", code_of(error));
        g_object_unref(database);
    }
    putchar('\n');
    fflush(stdout);
}

int main(void) {
    static char line[8192];
    while (fgets(line, sizeof line, stdin)) {
        char *tab = strchr(line, '\t');
        line[strcspn(line, "\r\n")] = 0;
        if (!tab) return 2;
        *tab = 0;
        run(line, tab + 1);
    }
    return 0;
}
