/* Hides x in the bench sheet B1 (6x + y = 4, 2x + z /= 0, 4x + y <= 3 at p = 3) and prints the answer as a listing. */
#include "vietoluyn.h"

#include <stdio.h>

enum { WIDTH = 3, WORDS = 3, CONSTRAINTS = 3 };

struct constraint {
    uint8_t kind;
    uint32_t numbers[2 * (WORDS + 1)];
};

static const struct constraint b1[CONSTRAINTS] = {
    {0, {6, 1, 0, 0, 0, 0, 0, 4}},
    {1, {2, 0, 1, 0, 0, 0, 0, 0}},
    {2, {4, 1, 0, 0, 0, 0, 0, 3}},
};

static uint8_t *put_number(uint8_t *to, uint32_t value)
{
    for (int shift = 24; shift >= 0; shift -= 8)
        *to++ = (uint8_t)(value >> shift);
    return to;
}

static uint32_t number_at(const uint8_t *from)
{
    return (uint32_t)from[0] << 24 | (uint32_t)from[1] << 16 | (uint32_t)from[2] << 8 | from[3];
}

static size_t write_b1(uint8_t *sheet)
{
    size_t size = VIETOLUYN_SHEET_SIZE(WORDS, CONSTRAINTS);
    uint8_t *to = put_number(sheet, (uint32_t)(size - 4));
    *to++ = 1;
    *to++ = WIDTH;
    *to++ = WORDS;
    *to++ = CONSTRAINTS;
    for (int i = 0; i < CONSTRAINTS; i++) {
        *to++ = b1[i].kind;
        for (int j = 0; j < 2 * (WORDS + 1); j++)
            to = put_number(to, b1[i].numbers[j]);
    }
    return size;
}

static void print_sheet(const uint8_t *sheet)
{
    static const char *const kinds[] = {"eq", "ne", "le", "lt"};
    int n = sheet[6], m = sheet[7];
    printf("sheet %d %d %d\n", sheet[5], n, m);
    for (const uint8_t *from = sheet + 8; m > 0; m--) {
        printf("%s", kinds[*from++]);
        for (int j = 0; j < 2 * (n + 1); j++, from += 4)
            printf("%s %lu", j == n + 1 ? " |" : "", (unsigned long)number_at(from));
        printf("\n");
    }
}

int main(void)
{
    static const char *const fate_names[] = {"left", "absent", "layer1", "layer2"};
    uint8_t sheet[VIETOLUYN_SHEET_SIZE(WORDS, CONSTRAINTS)];
    uint8_t out[VIETOLUYN_ROOM(WORDS)];
    const uint8_t list[1] = {0};
    uint8_t fates[1];
    size_t size = write_b1(sheet);

    struct vietoluyn_answer answer = vietoluyn_hide(sheet, size, list, 1, out, sizeof out, fates, sizeof fates);
    if (answer.refused != VIETOLUYN_ACCEPTED) {
        printf("refused %lu\n", (unsigned long)answer.refused);
        return 1;
    }
    print_sheet(out);
    printf("fate %d %s\n", list[0], fate_names[fates[0]]);
    printf("length %lu, walks %lu\n", (unsigned long)answer.length, (unsigned long)answer.walks);

    /* A sheet that is cut short is refused, and the buffers stay. */
    uint8_t before = out[0];
    answer = vietoluyn_hide(sheet, size - 1, list, 1, out, sizeof out, fates, sizeof fates);
    printf("refused %lu, buffer %s\n", (unsigned long)answer.refused, out[0] == before ? "kept" : "changed");
    return 0;
}
