/*
 * Answers lines on floats by the C library, whose strtof, strtod and printf round right in glibc.
 *
 * `p32 DECIMAL` asks for the bits of the `float` nearest to the decimal, in hexadecimal digits: `-` where it is beyond
 * the range. What the decimal becomes by way of a `double` stands behind it. `w32 BITS` asks for the text of a float:
 * the shortest digits that read back, of those the nearest, laid out as `ryu` in Rust. `p64` and `w64` are the same of
 * `double`, without the way by another.
 */
#include <math.h>
#include <stdint.h>
#include <stdio.h>
#include <stdlib.h>
#include <string.h>

/* The digits of the longest text, the most of them before the point, and the most zeros behind it. */
struct layout { int digits, whole, zeros; };

static const struct layout single_layout = {9, 13, 5}, double_layout = {17, 16, 4};

static uint32_t single_bits(float number) {
    uint32_t bits;
    memcpy(&bits, &number, sizeof bits);
    return bits;
}

static uint64_t double_bits(double number) {
    uint64_t bits;
    memcpy(&bits, &number, sizeof bits);
    return bits;
}

static void parse(int single, const char *text) {
    double number = single ? (double)strtof(text, NULL) : strtod(text, NULL);
    if (isinf(number)) fputs("-", stdout);
    else if (single) printf("%08x", single_bits((float)number));
    else printf("%016llx", (unsigned long long)double_bits(number));
    if (single) printf(" %08x", single_bits((float)strtod(text, NULL)));
    putchar('\n');
}

static int reads_back(int single, double size, unsigned long long digits, int power) {
    char text[48];
    snprintf(text, sizeof text, "%llue%d", digits, power);
    return single ? strtof(text, NULL) == (float)size : strtod(text, NULL) == size;
}

/* The shortest digits, of a number above zero, that read back, and of those the nearest; `power` is that of the last
   digit. Where the nearest of so many digits is below the number and does not read back, the next may: the gap below a
   power of two is half of that above it. */
static unsigned long long shortest(int single, double size, int most, int *power) {
    for (int count = 1; ; count++) {
        char text[48];
        snprintf(text, sizeof text, "%.*e", count - 1, size);
        char *letter = strchr(text, 'e');
        *power = atoi(letter + 1) - (count - 1);
        *letter = 0;
        if (count > 1) memmove(text + 1, text + 2, strlen(text + 2) + 1);
        unsigned long long digits = strtoull(text, NULL, 10);
        if (count == most || reads_back(single, size, digits, *power)) return digits;
        if (reads_back(single, size, digits + 1, *power)) return digits + 1;
    }
}

static void print_zeros(int count) {
    while (count-- > 0) putchar('0');
}

static void print_size(int single, double size, struct layout layout) {
    char digits[24];
    int power;
    if (size == 0) { fputs("0.0", stdout); return; }
    int length = snprintf(digits, sizeof digits, "%llu", shortest(single, size, layout.digits, &power));
    int whole = length + power;
    if (0 < whole && whole <= layout.whole) {
        printf("%.*s", whole, digits);
        print_zeros(power);
        printf(".%s", power < 0 ? digits + whole : "0");
    } else if (-layout.zeros <= whole && whole <= 0) {
        fputs("0.", stdout);
        print_zeros(-whole);
        fputs(digits, stdout);
    } else {
        printf("%c%s%se%d", digits[0], length > 1 ? "." : "", digits + 1, whole - 1);
    }
}

static void print(int single, const char *hexadecimal) {
    uint64_t bits = strtoull(hexadecimal, NULL, 16);
    uint32_t low = (uint32_t)bits;
    float narrow;
    double number;
    memcpy(&narrow, &low, sizeof narrow);
    memcpy(&number, &bits, sizeof number);
    if (single) number = narrow;
    if (!isnan(number) && signbit(number)) putchar('-');
    if (isnan(number)) fputs(".nan", stdout);
    else if (isinf(number)) fputs(".inf", stdout);
    else print_size(single, fabs(number), single ? single_layout : double_layout);
    putchar('\n');
}

int main(void) {
    char *line = NULL;
    size_t room = 0;
    ssize_t length;
    while ((length = getline(&line, &room, stdin)) > 4) {
        int single = line[1] == '3';
        line[length - 1] = 0;
        if (line[0] == 'p') parse(single, line + 4);
        else print(single, line + 4);
    }
    return 0;
}
