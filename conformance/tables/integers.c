// Prints the rows of integer_rows.rt and arithmetic_rows.rt: C99's conversions and operators at the edges of the integer kinds.
// Each answer is computed by the compiler of this file. What C99 leaves undefined is never computed: its row names the run error.
#include <limits.h>
#include <stdio.h>

__extension__ typedef __int128 wide;

enum {
  MULTIPLY, DIVIDE, REMAINDER, ADD, SUBTRACT, SHIFT_LEFT, SHIFT_RIGHT,
  LESS, GREATER, LESS_OR_EQUAL, GREATER_OR_EQUAL, EQUAL, NOT_EQUAL,
  BIT_AND, BIT_XOR, BIT_OR
};
static const char *const names[] = {
  "Multiply", "Divide", "Remainder", "Add", "Subtract", "ShiftLeft", "ShiftRight",
  "Less", "Greater", "LessEqual", "GreaterEqual", "Equal", "NotEqual",
  "BitAnd", "BitXor", "BitOr"
};

// A kind that promotion leaves as it is.
struct kind {
  const char *name;
  int is_signed;
  int width;
  wide least;
  wide greatest;
  wide (*convert)(wide v);
  wide (*binary)(int op, wide left, wide right);
  wide (*unary)(int op, wide operand);
};

// The operators of C at a type. A shift's count is below the width.
#define OPERATORS(type, prefix)                                 \
  static wide prefix##_convert(wide v) { return (type)v; }      \
  static wide prefix##_binary(int op, wide left, wide right) {  \
    volatile type a = (type)left, b = (type)right;              \
    switch (op) {                                               \
    case MULTIPLY: return a * b;                                \
    case DIVIDE: return a / b;                                  \
    case REMAINDER: return a % b;                               \
    case ADD: return a + b;                                     \
    case SUBTRACT: return a - b;                                \
    case SHIFT_LEFT: return a << b;                             \
    case SHIFT_RIGHT: return a >> b;                            \
    case LESS: return a < b;                                    \
    case GREATER: return a > b;                                 \
    case LESS_OR_EQUAL: return a <= b;                          \
    case GREATER_OR_EQUAL: return a >= b;                       \
    case EQUAL: return a == b;                                  \
    case NOT_EQUAL: return a != b;                              \
    case BIT_AND: return a & b;                                 \
    case BIT_XOR: return a ^ b;                                 \
    default: return a | b;                                      \
    }                                                           \
  }                                                             \
  static wide prefix##_unary(int op, wide operand) {            \
    volatile type a = (type)operand;                            \
    switch (op) {                                               \
    case 0: return +a;                                          \
    case 1: return -a;                                          \
    case 2: return ~a;                                          \
    default: return !a;                                         \
    }                                                           \
  }

OPERATORS(int, int)
OPERATORS(unsigned int, uint)
OPERATORS(long, long)
OPERATORS(unsigned long, ulong)

#define KIND(name, prefix, is_signed, width, least, greatest) \
  {name, is_signed, width, least, greatest, prefix##_convert, prefix##_binary, prefix##_unary}

static const struct kind kinds[] = {
  KIND("Int", int, 1, 32, INT_MIN, INT_MAX),
  KIND("UInt", uint, 0, 32, 0, UINT_MAX),
  KIND("Long", long, 1, 64, LONG_MIN, LONG_MAX),
  KIND("ULong", ulong, 0, 64, 0, ULONG_MAX),
};

static void put_digits(wide v) {
  if (v >= 1000) {
    put_digits(v / 1000);
    printf("_%03d", (int)(v % 1000));
  } else {
    printf("%d", (int)v);
  }
}

static void put_number(wide v) {
  if (v < 0)
    putchar('-');
  put_digits(v < 0 ? -v : v);
}

// A number, by its name in <limits.h> where it is a limit of a wide kind.
static void put(wide v) {
  if (v == INT_MIN)
    printf("INT_MIN");
  else if (v == INT_MAX)
    printf("INT_MAX");
  else if (v == UINT_MAX)
    printf("UINT_MAX");
  else if (v == LONG_MIN)
    printf("LONG_MIN");
  else if (v == LONG_MAX)
    printf("LONG_MAX");
  else if (v == ULONG_MAX)
    printf("ULONG_MAX");
  else
    put_number(v);
}

static int fits(const struct kind *k, wide v) {
  return !k->is_signed || (k->least <= v && v <= k->greatest);
}

// The run error of a binary operator where C99 leaves its result undefined (C99 6.5, 6.5.5, 6.5.7), else 0.
static const char *undefined(const struct kind *k, int op, wide a, wide b) {
  static const char overflow[] = "OVERFLOW", zero[] = "BY_ZERO", count[] = "BAD_COUNT";
  switch (op) {
  case MULTIPLY: return k->is_signed && !fits(k, a * b) ? overflow : 0;
  case ADD: return fits(k, a + b) ? 0 : overflow;
  case SUBTRACT: return fits(k, a - b) ? 0 : overflow;
  case SHIFT_LEFT:
    if (a < 0)
      return overflow;
    if (b < 0 || b >= k->width)
      return count;
    return k->is_signed && !fits(k, a * ((wide)1 << b)) ? overflow : 0;
  case SHIFT_RIGHT: return b < 0 || b >= k->width ? count : 0;
  case DIVIDE:
  case REMAINDER:
    if (b == 0)
      return zero;
    return fits(k, a / b) ? 0 : overflow;
  default: return 0;
  }
}

static void binary_row(const struct kind *k, int op, wide a, wide b) {
  const char *error = undefined(k, op, a, b);
  printf("    (BinOp::%s, ", names[op]);
  put(a);
  printf(", ");
  put(b);
  printf(", ");
  if (error) {
    printf("%s", error);
  } else {
    printf("Ok(");
    put(k->binary(op, a, b));
    printf(")");
  }
  printf("),\n");
}

static void signed_rows(const struct kind *k) {
  wide least = k->least, most = k->greatest, half = (wide)1 << (k->width / 2);
  wide root = k->width == 32 ? 46340 : 3037000499;
  int bits = k->width;
  wide product[][2] = {
    {least, 1}, {least, -1}, {least, 0}, {least, least}, {least, most}, {least / 2, 2}, {least / 2, -2},
    {most, -1}, {most, 2}, {most, most}, {-1, -1}, {-7, 3}, {root, root}, {root + 1, root + 1}, {half, half / 2}, {half, -half / 2}};
  wide quotient[][2] = {
    {least, 1}, {least, -1}, {least, 2}, {least, most}, {least, least}, {most, least}, {most, -1}, {least + 1, -1},
    {7, 2}, {-7, 2}, {7, -2}, {-7, -2}, {-1, 2}, {0, least}, {0, -1}, {1, 0}, {0, 0}, {least, 0}};
  wide sum[][2] = {
    {most, 0}, {most, 1}, {most, -1}, {most, most}, {most, least}, {least, 0}, {least, -1}, {least, 1}, {least, least}, {1, most}, {-1, 1}};
  wide difference[][2] = {
    {least, 0}, {least, 1}, {least, -1}, {least, least}, {least, most}, {most, -1}, {most, 1}, {most, most}, {most, least},
    {0, least}, {-1, least}, {0, most}, {-1, most}, {-2, most}};
  wide left[][2] = {
    {1, 0}, {1, bits - 2}, {1, bits - 1}, {1, bits}, {1, -1}, {1, ((wide)1 << 32) + 1}, {1, LONG_MIN}, {1, ULONG_MAX},
    {0, bits - 1}, {0, bits}, {3, bits - 3}, {3, bits - 2}, {most, 0}, {most, 1}, {-1, 0}, {-1, 1}, {-1, bits}, {least, 0}, {least, -1}};
  wide right[][2] = {
    {least, 0}, {least, 1}, {least, bits - 1}, {least, bits}, {most, 0}, {most, 1}, {most, bits - 2}, {most, bits - 1}, {most, bits},
    {-1, 1}, {-1, bits - 1}, {-1, bits}, {-7, 1}, {-8, 2}, {7, 1}, {0, -1}, {1, ((wide)1 << 32) + 1}, {-1, LONG_MIN}, {1, ULONG_MAX}};
#define ROWS(op, list)                                          \
  for (unsigned i = 0; i < sizeof list / sizeof list[0]; i++)   \
    binary_row(k, op, list[i][0], list[i][1])
  ROWS(MULTIPLY, product);
  ROWS(DIVIDE, quotient);
  ROWS(REMAINDER, quotient);
  ROWS(ADD, sum);
  ROWS(SUBTRACT, difference);
  ROWS(SHIFT_LEFT, left);
  ROWS(SHIFT_RIGHT, right);
}

static void unsigned_rows(const struct kind *k) {
  wide most = k->greatest, half = (wide)1 << (k->width / 2), middle = (wide)1 << (k->width - 1);
  int bits = k->width;
  wide product[][2] = {{most, 0}, {most, 1}, {most, 2}, {most, most}, {middle, 2}, {half, half}, {half - 1, half + 1}, {half + 1, half + 1}};
  wide quotient[][2] = {
    {most, 1}, {most, 2}, {most, most}, {most, most - 1}, {most - 1, most}, {most, middle}, {middle, most}, {middle, 10},
    {0, most}, {1, 0}, {0, 0}, {most, 0}};
  wide sum[][2] = {{most, 0}, {most, 1}, {most, most}, {1, most}, {middle, middle}, {middle, middle - 1}};
  wide difference[][2] = {{0, 1}, {0, most}, {1, most}, {most, most}, {most, 1}, {middle, middle - 1}, {middle - 1, middle}};
  wide left[][2] = {
    {1, 0}, {1, bits - 1}, {1, bits}, {1, -1}, {1, ((wide)1 << 32) + 1}, {1, LONG_MIN}, {1, ULONG_MAX},
    {0, bits - 1}, {0, bits}, {middle, 1}, {most, 0}, {most, 1}, {most, bits - 1}, {most, bits}};
  wide right[][2] = {
    {most, 0}, {most, 1}, {most, bits - 1}, {most, bits}, {middle, 1}, {middle, bits - 1}, {1, 1}, {0, bits}, {most, -1},
    {1, ((wide)1 << 32) + 1}, {1, LONG_MIN}, {1, ULONG_MAX}};
  ROWS(MULTIPLY, product);
  ROWS(DIVIDE, quotient);
  ROWS(REMAINDER, quotient);
  ROWS(ADD, sum);
  ROWS(SUBTRACT, difference);
  ROWS(SHIFT_LEFT, left);
  ROWS(SHIFT_RIGHT, right);
}

// A row of the operators from first to last, none of which can be undefined.
static void group_row(const struct kind *k, int first, int last, wide a, wide b) {
  printf("    (Kind::%s, ", k->name);
  put(a);
  printf(", ");
  put(b);
  printf(", [");
  for (int op = first; op <= last; op++) {
    if (op > first)
      printf(", ");
    put(k->binary(op, a, b));
  }
  printf("]),\n");
}

#define GROUP(first, last, list)                                \
  for (unsigned i = 0; i < sizeof list / sizeof list[0]; i++)   \
    group_row(k, first, last, list[i][0], list[i][1])

static void comparison_rows(const struct kind *k) {
  wide least = k->least, most = k->greatest, middle = (wide)1 << (k->width - 1);
  wide ends[][2] = {{least, most}, {most, least}, {least, least}, {most, most}, {most, most - 1}, {0, 1}};
  wide round_zero[][2] = {{-1, 0}, {0, -1}, {least, -1}};
  wide round_middle[][2] = {{middle, middle - 1}, {middle - 1, middle}, {middle, most}};
  GROUP(LESS, NOT_EQUAL, ends);
  if (k->is_signed)
    GROUP(LESS, NOT_EQUAL, round_zero);
  else
    GROUP(LESS, NOT_EQUAL, round_middle);
}

static void bit_rows(const struct kind *k) {
  wide least = k->least, most = k->greatest, middle = (wide)1 << (k->width - 1);
  wide signed_pairs[][2] = {
    {least, most}, {least, least}, {least, -1}, {most, -1}, {most, most}, {-1, 0}, {-1, 1}, {-8, 255}, {6, 3}};
  wide unsigned_pairs[][2] = {{most, most}, {most, 0}, {most, 1}, {middle, most}, {middle, middle - 1}, {6, 3}};
  if (k->is_signed)
    GROUP(BIT_AND, BIT_OR, signed_pairs);
  else
    GROUP(BIT_AND, BIT_OR, unsigned_pairs);
}

static void unary_row(const struct kind *k, int op, wide a) {
  static const char *const unary_names[] = {"Plus", "Minus", "Complement", "Not"};
  printf("    (UnOp::%s, Kind::%s, ", unary_names[op], k->name);
  put(a);
  printf(", ");
  if (op == 1 && !fits(k, -a)) {
    printf("OVERFLOW");
  } else {
    printf("Ok(");
    put(k->unary(op, a));
    printf(")");
  }
  printf("),\n");
}

static void unary_rows(const struct kind *k) {
  wide at[] = {k->least, k->is_signed ? -1 : k->greatest - 1, 0, 1, k->greatest};
  for (int op = 0; op < 4; op++)
    for (unsigned i = k->is_signed ? 0 : 1; i < sizeof at / sizeof at[0]; i++)
      unary_row(k, op, at[i]);
}

// The value of a number at a type, converted to each kind. Where several types have the number, all answer the same.
static int wrong;
#define CONVERT(type, low, high)                                                                          \
  if (low <= v && v <= high) {                                                                            \
    volatile type from = (type)v;                                                                         \
    wide got[] = {(char)from, (unsigned char)from, (short)from, (unsigned short)from,                     \
                  (int)from,  (unsigned int)from,  (long)from,  (unsigned long)from};                     \
    for (int to = 0; to < 8; to++) {                                                                      \
      wrong |= types && answers[to] != got[to];                                                           \
      answers[to] = got[to];                                                                              \
    }                                                                                                     \
    types++;                                                                                              \
  }

static void conversion_rows(wide v) {
  static const char *const to_names[] = {"Char", "UChar", "Short", "UShort", "Int", "UInt", "Long", "ULong"};
  wide answers[8] = {0};
  int types = 0;
  CONVERT(char, CHAR_MIN, CHAR_MAX)
  CONVERT(unsigned char, 0, UCHAR_MAX)
  CONVERT(short, SHRT_MIN, SHRT_MAX)
  CONVERT(unsigned short, 0, USHRT_MAX)
  CONVERT(int, INT_MIN, INT_MAX)
  CONVERT(unsigned int, 0, UINT_MAX)
  CONVERT(long, LONG_MIN, LONG_MAX)
  CONVERT(unsigned long, 0, ULONG_MAX)
  for (int to = 0; to < 8; to++) {
    printf("    (");
    put(v);
    printf(", Kind::%s, ", to_names[to]);
    put(answers[to]);
    printf("),\n");
  }
}

// Operands of two types, the kind that the operator is done at (C99 6.3.1.8, 6.5.7), and what it gives.
#define KIND_OF(expression)                                                   \
  (__builtin_types_compatible_p(__typeof__(expression), int)            ? 0   \
   : __builtin_types_compatible_p(__typeof__(expression), unsigned int) ? 1   \
   : __builtin_types_compatible_p(__typeof__(expression), long)         ? 2   \
                                                                        : 3)
#define MIXED(left_type, left, code, operator, right_type, right)                                        \
  do {                                                                                                   \
    volatile left_type a = left;                                                                         \
    volatile right_type b = right;                                                                       \
    int is_shift = code == SHIFT_LEFT || code == SHIFT_RIGHT;                                            \
    const struct kind *k = &kinds[is_shift ? KIND_OF(+a) : KIND_OF(a + b)];                              \
    const char *error = undefined(k, code, k->convert(a), is_shift ? (wide)b : k->convert(b));           \
    mixed_row(code, k, a, b, error, error ? 0 : (wide)(a operator b));                                   \
  } while (0)

static void mixed_row(int op, const struct kind *k, wide a, wide b, const char *error, wide result) {
  printf("    (BinOp::%s, Kind::%s, ", names[op], k->name);
  put(a);
  printf(", ");
  put(b);
  printf(error ? ", %s" : ", Ok(", error);
  if (!error) {
    put(result);
    printf(")");
  }
  printf("),\n");
}

static void mixed_rows(void) {
  MIXED(int, -1, LESS, <, unsigned int, 1);
  MIXED(int, -1, GREATER, >, unsigned int, 1);
  MIXED(int, -1, EQUAL, ==, unsigned int, UINT_MAX);
  MIXED(long, -1, LESS, <, unsigned int, 1);
  MIXED(long, -1, EQUAL, ==, unsigned int, UINT_MAX);
  MIXED(int, -1, EQUAL, ==, unsigned long, ULONG_MAX);
  MIXED(unsigned int, UINT_MAX, EQUAL, ==, unsigned long, ULONG_MAX);
  MIXED(long, LONG_MIN, LESS, <, unsigned long, 0);
  MIXED(char, -1, EQUAL, ==, unsigned char, UCHAR_MAX);
  MIXED(short, -1, NOT_EQUAL, !=, unsigned short, USHRT_MAX);
  MIXED(char, -1, LESS, <, unsigned short, 0);
  MIXED(char, -1, GREATER_OR_EQUAL, >=, unsigned int, 0);
  MIXED(unsigned short, USHRT_MAX, LESS_OR_EQUAL, <=, unsigned long, 0);
  MIXED(char, CHAR_MIN, ADD, +, char, CHAR_MIN);
  MIXED(unsigned char, UCHAR_MAX, ADD, +, unsigned char, 1);
  MIXED(unsigned short, USHRT_MAX, ADD, +, short, 1);
  MIXED(int, INT_MIN, ADD, +, unsigned int, INT_MAX + 1U);
  MIXED(int, INT_MAX, ADD, +, char, 1);
  MIXED(int, INT_MAX, ADD, +, unsigned int, 1);
  MIXED(int, INT_MAX, ADD, +, long, 1);
  MIXED(unsigned int, UINT_MAX, ADD, +, long, 1);
  MIXED(long, -1, ADD, +, unsigned long, 1);
  MIXED(unsigned int, 0, SUBTRACT, -, int, 1);
  MIXED(unsigned char, 0, SUBTRACT, -, unsigned char, UCHAR_MAX);
  MIXED(long, 0, SUBTRACT, -, unsigned int, UINT_MAX);
  MIXED(short, SHRT_MIN, MULTIPLY, *, short, SHRT_MIN);
  MIXED(unsigned short, USHRT_MAX, MULTIPLY, *, unsigned short, USHRT_MAX);
  MIXED(unsigned int, UINT_MAX, MULTIPLY, *, char, -1);
  MIXED(int, INT_MAX, MULTIPLY, *, long, 2);
  MIXED(int, -1, MULTIPLY, *, unsigned long, ULONG_MAX);
  MIXED(int, -1, DIVIDE, /, unsigned int, 2);
  MIXED(unsigned int, 1, DIVIDE, /, int, -1);
  MIXED(int, INT_MIN, DIVIDE, /, long, -1);
  MIXED(long, LONG_MIN, DIVIDE, /, char, -1);
  MIXED(unsigned long, 1, DIVIDE, /, char, 0);
  MIXED(int, -7, REMAINDER, %, unsigned int, 4);
  MIXED(int, -7, REMAINDER, %, long, 4);
  MIXED(int, INT_MIN, REMAINDER, %, short, -1);
  MIXED(char, -1, BIT_AND, &, unsigned char, UCHAR_MAX);
  MIXED(char, -1, BIT_AND, &, long, LONG_MAX);
  MIXED(char, -1, BIT_XOR, ^, unsigned int, 0);
  MIXED(short, -1, BIT_OR, |, unsigned long, 0);
  MIXED(unsigned char, CHAR_MAX, SHIFT_LEFT, <<, int, 24);
  MIXED(unsigned char, UCHAR_MAX, SHIFT_LEFT, <<, int, 24);
  MIXED(int, 1, SHIFT_LEFT, <<, long, 31);
  MIXED(int, 1, SHIFT_LEFT, <<, long, 32);
  MIXED(unsigned int, 1, SHIFT_LEFT, <<, long, 31);
  MIXED(long, 1, SHIFT_LEFT, <<, char, 32);
  MIXED(char, CHAR_MIN, SHIFT_RIGHT, >>, unsigned int, 7);
  MIXED(unsigned short, USHRT_MAX, SHIFT_RIGHT, >>, char, 15);
  MIXED(int, -1, SHIFT_RIGHT, >>, unsigned long, 31);
  MIXED(unsigned int, UINT_MAX, SHIFT_RIGHT, >>, char, -1);
}

static void limit(const char *name, wide v) {
  printf("const %s: i128 = ", name);
  put_number(v);
  printf(";\n");
}

int main(void) {
  limit("INT_MIN", INT_MIN);
  limit("INT_MAX", INT_MAX);
  limit("UINT_MAX", UINT_MAX);
  limit("LONG_MIN", LONG_MIN);
  limit("LONG_MAX", LONG_MAX);
  limit("ULONG_MAX", ULONG_MAX);
  wide values[] = {
    0, 1, -1, CHAR_MIN, CHAR_MIN - 1, CHAR_MAX, CHAR_MAX + 1, UCHAR_MAX, UCHAR_MAX + 1,
    SHRT_MIN, SHRT_MIN - 1, SHRT_MAX, SHRT_MAX + 1, USHRT_MAX, USHRT_MAX + 1,
    INT_MIN, INT_MIN - 1L, INT_MAX, INT_MAX + 1L, UINT_MAX, UINT_MAX + 1L,
    LONG_MIN, LONG_MIN + 1, LONG_MAX, LONG_MAX + 1UL, ULONG_MAX};
  printf("\nCONVERSIONS\n");
  for (unsigned i = 0; i < sizeof values / sizeof values[0]; i++)
    conversion_rows(values[i]);
  printf("\nUNARY\n");
  for (int i = 0; i < 4; i++)
    unary_rows(&kinds[i]);
  printf("\nCOMPARISONS\n");
  for (int i = 0; i < 4; i++)
    comparison_rows(&kinds[i]);
  printf("\nBITS\n");
  for (int i = 0; i < 4; i++)
    bit_rows(&kinds[i]);
  printf("\nMIXED\n");
  mixed_rows();
  static const char *const tables[] = {"INT", "UNSIGNED_INT", "LONG", "UNSIGNED_LONG"};
  for (int i = 0; i < 4; i++) {
    printf("\n%s\n", tables[i]);
    if (kinds[i].is_signed)
      signed_rows(&kinds[i]);
    else
      unsigned_rows(&kinds[i]);
  }
  return wrong;
}
