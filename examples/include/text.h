/* A few lines on texts and decimal numbers, for functions that are linked with nothing else. */
#ifndef TEXT_H
#define TEXT_H

/* Whether the first bytes of a text are those of another. */
static inline int begins(const char *text, unsigned size, const char *with, unsigned with_size) {
    if (size < with_size) return 0;
    for (unsigned i = 0; i < with_size; i++)
        if (text[i] != with[i]) return 0;
    return 1;
}

/* Copies bytes to the place `at` of a text that has room, by one instruction; answers the place behind them. */
static inline unsigned put_text(char *to, unsigned at, const char *from, unsigned size) {
    __builtin_memcpy(to + at, from, size);
    return at + size;
}

/* Writes a number in decimal to the place `at` of a text with ten bytes of room; answers the place behind it. */
static inline unsigned put_number(char *to, unsigned at, unsigned number) {
    char digits[10];
    unsigned count = 0;
    do digits[count++] = '0' + number % 10;
    while (number /= 10);
    while (count) to[at++] = digits[--count];
    return at;
}

/* The number that a text of decimal digits begins with, 0 if it begins with none. */
static inline unsigned number_in(const char *text, unsigned size) {
    unsigned number = 0;
    for (unsigned i = 0; i < size && text[i] >= '0' && text[i] <= '9'; i++) number = number * 10 + (text[i] - '0');
    return number;
}

#endif
