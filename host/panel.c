/* Prints the sheet of a plant file: panel FILE, or panel with the file as standard input. */
#include "widgulp.h"

#include <stdio.h>
#include <stdlib.h>

/* As many bytes of a file count; no file that is accepted is longer. */
#define FILE_LEN 65536

static uint8_t file[FILE_LEN];
static uint8_t sheet[WIDGULP_SHEET_LEN];

int main(int argc, char **argv) {
    if (argc > 2) {
        fprintf(stderr, "usage: panel [FILE]\n");
        return 2;
    }
    const char *name = argc == 2 ? argv[1] : "standard input";
    FILE *in = argc == 2 ? fopen(name, "rb") : stdin;
    if (in == NULL) {
        perror(name);
        return 2;
    }
    size_t file_len = fread(file, 1, FILE_LEN, in);
    int failed = ferror(in);
    fclose(in);
    if (failed) {
        fprintf(stderr, "%s: cannot be read\n", name);
        return 2;
    }
    int64_t len = widgulp_listing(file, file_len, sheet, sizeof sheet);
    if (len < 0) {
        printf("DECLINED %lld\n", (long long)-len);
    } else {
        fwrite(sheet, 1, (size_t)len, stdout);
    }
    return 0;
}
