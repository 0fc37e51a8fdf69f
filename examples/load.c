/* Loads a program file and says `accepted`, or why it is refused and at which row. */
#include <stdio.h>

#include "tca.h"

/* What a refusal of tca_load means, for people. */
static const char *words(uint32_t refusal) {
    switch (refusal) {
    case TCA_LENGTH:
        return "the record buffer must be exactly 26,132 bytes long";
    case TCA_SIZE:
        return "the file is cut off or too long: it does not have the length that its counts need";
    case TCA_MARK:
        return "this is no program file: it does not begin with the letters TCA";
    case TCA_VERSION:
        return "the program file is of a version that this library does not know";
    case TCA_COUNT:
        return "the file's head is damaged: it must count 1 to 256 types and 1 to 1,024 rows, behind a zero byte";
    case TCA_TYPE_ROW:
        return "the type is malformed, repeats an earlier one, or is made of types that it may not use";
    case TCA_ROW:
        return "the row is malformed or stands behind the routine's end, or the routine is unfinished here";
    case TCA_FUTURE:
        return "the row stands for a call that was sent, which no program file may hold";
    case TCA_TYPING:
        return "the types do not fit: those of the row, of the rows below it or of the name that it uses";
    default:
        return "the library and tca.h are not of one edition";
    }
}

int main(int argc, char **argv) {
    /* One byte more than any program has: of a longer file this much is enough to be refused as the whole would be. */
    static uint8_t file[TCA_MAX_FILE_BYTES + 1];
    static uint8_t record[TCA_RECORD_BYTES];

    if (argc != 2) {
        fprintf(stderr, "usage: load FILE\n");
        return 2;
    }
    FILE *from = fopen(argv[1], "rb");
    if (from == NULL) {
        perror(argv[1]);
        return 2;
    }
    size_t length = fread(file, 1, sizeof file, from);
    if (ferror(from)) {
        perror(argv[1]);
        return 2;
    }
    fclose(from);

    tca_verdict verdict = tca_load(file, length, record, sizeof record);
    if (verdict.refusal == TCA_ACCEPTED) {
        printf("accepted\n");
        return 0;
    }
    printf("refused: ");
    if (verdict.refusal == TCA_TYPE_ROW) {
        printf("type row %lu: ", (unsigned long)verdict.place);
    } else if (verdict.refusal >= TCA_ROW) {
        printf("row %lu: ", (unsigned long)verdict.place);
    }
    printf("%s (refusal %lu)\n", words(verdict.refusal), (unsigned long)verdict.refusal);
    return 1;
}
