/*
 * Writes the tables of src/tests: what gcc computes of each operator at the edges of each kind. In the
 * crate's folder:
 *
 *     gcc -O0 -Wall -o /tmp/operators table/operators.c
 *     for table in sums quotients bits shifts signs conversions ranks; do
 *         /tmp/operators $table > src/tests/$table.rt
 *     done
 *     rt fmt
 *
 * `NO` stands where C99 leaves the result undefined: a signed result that does not fit (as gcc's
 * checked builtins tell), a zero divisor, the least number divided by -1, a count that is negative or
 * not below the width, a negative number shifted to the left.
 */
#include <stdint.h>
#include <stdio.h>
#include <string.h>

typedef __int128 wide;

#define KINDS(X)                                                                                   \
    X(U8, uint8_t, 8, 0, UINT8_MAX)                                                                \
    X(U16, uint16_t, 16, 0, UINT16_MAX)                                                            \
    X(U32, uint32_t, 32, 0, UINT32_MAX)                                                            \
    X(U64, uint64_t, 64, 0, UINT64_MAX)                                                            \
    X(S8, int8_t, 8, INT8_MIN, INT8_MAX)                                                           \
    X(S16, int16_t, 16, INT16_MIN, INT16_MAX)                                                      \
    X(S32, int32_t, 32, INT32_MIN, INT32_MAX)                                                      \
    X(S64, int64_t, 64, INT64_MIN, INT64_MAX)

#define NAME(x)                                                                                    \
    _Generic((x), uint8_t: "U8", uint16_t: "U16", uint32_t: "U32", uint64_t: "U64",                \
             int8_t: "S8", int16_t: "S16", int32_t: "S32", int64_t: "S64")

static void number(wide n)
{
    char text[48], *at = text + sizeof text;
    unsigned __int128 size = n < 0 ? -(unsigned __int128)n : (unsigned __int128)n;

    *--at = 0;
    do
        *--at = '0' + size % 10;
    while (size /= 10);
    printf("%s%s", n < 0 ? "-" : "", at);
}

/* A number, or that there is none. */
static void first(int defined, wide n)
{
    if (defined)
        number(n);
    else
        printf("NO");
}

static void next(int defined, wide n)
{
    printf(", ");
    first(defined, n);
}

static void operands(const char *kind, wide a, wide b)
{
    printf("(%s, ", kind);
    number(a);
    printf(", ");
    number(b);
    printf(", [");
}

/* The numbers to the left of an operator: the edges and their neighbours. */
static int lefts(wide *out, wide least, wide greatest)
{
    int count = 0;

    out[count++] = least;
    out[count++] = least + 1;
    for (int n = -1; least < 0 && n <= 1; n++)
        out[count++] = n;
    out[count++] = greatest - 1;
    out[count++] = greatest;
    return count;
}

/* The numbers to the right: the edges. */
static int rights(wide *out, wide least, wide greatest)
{
    int count = 0;

    out[count++] = least;
    for (int n = -1; least < 0 && n <= 0; n++)
        out[count++] = n;
    out[count++] = 1;
    out[count++] = greatest;
    return count;
}

#define OPERATORS(K, T, N, LEAST, GREATEST)                                                        \
    static void sum_##K(T a, T b)                                                                  \
    {                                                                                              \
        T r;                                                                                       \
        int wraps = LEAST == 0;                                                                    \
        int adds = !__builtin_add_overflow(a, b, &r);                                              \
                                                                                                   \
        first(adds || wraps, wraps ? (T)(a + b) : r);                                              \
        int subtracts = !__builtin_sub_overflow(a, b, &r);                                         \
        next(subtracts || wraps, wraps ? (T)(a - b) : r);                                          \
        int multiplies = !__builtin_mul_overflow(a, b, &r);                                        \
        next(multiplies || wraps, wraps ? (T)((uint64_t)a * (uint64_t)b) : r);                     \
    }                                                                                              \
                                                                                                   \
    static void quotient_##K(T a, T b)                                                             \
    {                                                                                              \
        int divides = b != 0 && !(LEAST < 0 && a == (T)LEAST && (wide)b == -1);                    \
                                                                                                   \
        first(divides, divides ? (T)(a / b) : 0);                                                  \
        next(divides, divides ? (T)(a % b) : 0);                                                   \
    }                                                                                              \
                                                                                                   \
    static void bits_##K(T a, T b)                                                                 \
    {                                                                                              \
        first(1, (T)(a & b));                                                                      \
        next(1, (T)(a | b));                                                                       \
        next(1, (T)(a ^ b));                                                                       \
    }                                                                                              \
                                                                                                   \
    static void shift_##K(T a, int n)                                                              \
    {                                                                                              \
        T r;                                                                                       \
        int takes = 0 <= n && n < N, wraps = LEAST == 0;                                           \
        int fits = takes && (wraps || ((wide)a >= 0                                                \
                                       && !__builtin_mul_overflow(a, (wide)1 << n, &r)));          \
                                                                                                   \
        first(fits, fits ? (T)(a << n) : 0);                                                       \
        next(takes, takes ? (T)(a >> n) : 0);                                                      \
    }                                                                                              \
                                                                                                   \
    static void sign_##K(T a)                                                                      \
    {                                                                                              \
        T r;                                                                                       \
        int wraps = LEAST == 0, fits = !__builtin_sub_overflow((T)0, a, &r);                       \
                                                                                                   \
        first(fits || wraps, wraps ? (T)-a : r);                                                   \
        next(1, (T)~a);                                                                            \
    }                                                                                              \
                                                                                                   \
    static void table_##K(const char *table)                                                       \
    {                                                                                              \
        wide left[8], right[8];                                                                    \
        int left_count = lefts(left, LEAST, GREATEST);                                             \
        int right_count = rights(right, LEAST, GREATEST);                                          \
        int counts[] = {-1, 0, 1, N - 1, N};                                                       \
                                                                                                   \
        for (int i = 0; i < left_count; i++) {                                                     \
            if (!strcmp(table, "signs")) {                                                         \
                printf("(" #K ", ");                                                               \
                number(left[i]);                                                                   \
                printf(", [");                                                                     \
                sign_##K(left[i]);                                                                 \
                printf("]),\n");                                                                   \
                continue;                                                                          \
            }                                                                                      \
            for (int j = 0; j < (strcmp(table, "shifts") ? right_count : 5); j++) {                \
                operands(#K, left[i], strcmp(table, "shifts") ? right[j] : counts[j]);             \
                if (!strcmp(table, "sums"))                                                        \
                    sum_##K(left[i], right[j]);                                                    \
                else if (!strcmp(table, "quotients"))                                              \
                    quotient_##K(left[i], right[j]);                                               \
                else if (!strcmp(table, "bits"))                                                   \
                    bits_##K(left[i], right[j]);                                                   \
                else                                                                               \
                    shift_##K(left[i], counts[j]);                                                 \
                printf("]),\n");                                                                   \
            }                                                                                      \
        }                                                                                          \
    }

KINDS(OPERATORS)

static void conversions(wide n)
{
    printf("(");
    number(n);
    printf(", [");
#define CONVERTED(K, T, N, LEAST, GREATEST) number((T)n); printf(", ");
    KINDS(CONVERTED)
    printf("]),\n");
}

#define TABLE(K, T, N, LEAST, GREATEST) table_##K(table);
#define EDGES(K, T, N, LEAST, GREATEST)                                                            \
    if (LEAST < 0)                                                                                 \
        conversions((wide)LEAST - 1), conversions(LEAST);                                          \
    conversions(GREATEST), conversions((wide)GREATEST + 1);
#define PAIR(K, T, L, U) printf("(" #K ", " #L ", %s),\n", NAME((T)0 + (U)0));
#define COMMON(K, T, N, LEAST, GREATEST)                                                           \
    PAIR(K, T, U8, uint8_t) PAIR(K, T, U16, uint16_t) PAIR(K, T, U32, uint32_t)                    \
    PAIR(K, T, U64, uint64_t) PAIR(K, T, S8, int8_t) PAIR(K, T, S16, int16_t)                      \
    PAIR(K, T, S32, int32_t) PAIR(K, T, S64, int64_t)
#define PROMOTED(K, T, N, LEAST, GREATEST) printf("(" #K ", %s),\n", NAME(+(T)0));

static void head(const char *told, const char *name, const char *row)
{
    printf("/// %s\npub(crate) const %s: &[%s] = &[\n", told, name, row);
}

int main(int count, char **words)
{
    const char *table = count == 2 ? words[1] : "";
    wide most = (wide)(((unsigned __int128)1 << 127) - 1);

    printf("// What gcc computes at the edges of each kind. Written by table/operators.c.\n\n");
    if (strcmp(table, "conversions"))
        printf("use mdr_core::Kind;\nuse mdr_core::Kind::{U8, U16, U32, U64, S8, S16, S32, S64};\n\n");
    if (strcmp(table, "conversions") && strcmp(table, "bits") && strcmp(table, "ranks"))
        printf("use super::NO;\n\n");
    if (!strcmp(table, "sums"))
        head("A kind, two numbers, and `+`, `-` and `*` of them.", "SUMS", "(Kind, i128, i128, [i128; 3])");
    else if (!strcmp(table, "quotients"))
        head("A kind, two numbers, and `/` and `%` of them.", "QUOTIENTS", "(Kind, i128, i128, [i128; 2])");
    else if (!strcmp(table, "bits"))
        head("A kind, two numbers, and `&`, `|` and `^` of them.", "BITS", "(Kind, i128, i128, [i128; 3])");
    else if (!strcmp(table, "shifts"))
        head("A kind, a number, a count, and `<<` and `>>` of them.", "SHIFTS", "(Kind, i128, i128, [i128; 2])");
    else if (!strcmp(table, "signs"))
        head("A kind, a number, and `-` and `~` of it.", "SIGNS", "(Kind, i128, [i128; 2])");
    else if (!strcmp(table, "conversions"))
        head("A number, and what each kind makes of it.", "CONVERSIONS", "(i128, [i128; 8])");
    else if (!strcmp(table, "ranks"))
        head("A kind, and what it is promoted to.", "PROMOTIONS", "(Kind, Kind)");
    else
        return 1;
    if (!strcmp(table, "conversions")) {
        conversions(-most - 1), conversions(-1), conversions(0), conversions(most);
        KINDS(EDGES)
    } else if (!strcmp(table, "ranks")) {
        KINDS(PROMOTED)
        printf("];\n\n");
        head("Two kinds, and the one that they have in common.", "COMMON", "(Kind, Kind, Kind)");
        KINDS(COMMON)
    } else {
        KINDS(TABLE)
    }
    printf("];\n");
    return 0;
}
