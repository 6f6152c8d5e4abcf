/* Prints the desk's reply to two files: reply BOOK SHEET. */
#include <stdio.h>
#include <stdlib.h>

#include "desk.h"

/* One byte more than a file may have, so that a larger one is seen as such. */
enum { MOST = DESK_FILE_MOST + 1 };

static size_t load(const char *path, uint8_t *bytes) {
    FILE *file = fopen(path, "rb");
    if (file == NULL) {
        return 0; /* a missing file is read as empty */
    }
    size_t length = fread(bytes, 1, MOST, file);
    fclose(file);
    return length;
}

int main(int count, char **words) {
    static uint8_t book[MOST], sheet[MOST], text[DESK_FILE_MOST], answer[DESK_ANSWER];
    if (count != 3) {
        fprintf(stderr, "usage: %s BOOK SHEET\n", words[0]);
        return 2;
    }
    size_t book_len = load(words[1], book);
    size_t sheet_len = load(words[2], sheet);
    uint32_t refusal = desk_reply(book, book_len, sheet, sheet_len, text, sizeof text, answer, sizeof answer);
    if (refusal != DESK_DONE) {
        printf("refused %u\n", (unsigned)refusal);
        return 0;
    }
    uint64_t length = 0;
    for (int i = 7; i >= 0; i--) {
        length = 256 * length + answer[i];
    }
    fwrite(text, 1, length, stdout);
    return 0;
}
