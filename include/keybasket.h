/*
 * Keybasket for C: reads a Rust literal, also one that was typed in, and gives an integer's value, a string's decoded bytes, the settled
 * form, and the type that a suffix names. x86-64 Linux. After `make install`: cc x.c $(pkg-config --cflags --libs keybasket)
 */
#ifndef KEYBASKET_H
#define KEYBASKET_H

#include <stddef.h>
#include <stdint.h>

#if SIZE_MAX != UINT64_MAX
#error "keybasket: lengths are of 64 bits"
#endif

#ifdef __cplusplus
extern "C" {
#endif

enum {
    /*
     * In bytes. A longer text is refused (43). No form and no decoded value is longer, so a buffer of this many bytes is never too small.
     */
    KEYBASKET_LONGEST = 65536,
    /*
     * A returned size_t below this is a length, or 0 for a value that was written. From here on it is this plus a refusal number.
     */
    KEYBASKET_REFUSED = 100000,
    /*
     * How many numbers keybasket_read and keybasket_read_keyed write: kind, start of suffix and up to six values. Earlier headers had 5 here.
     * A program built with one of these must be built anew, since a call now writes eight numbers and would overrun an array of five. Write
     * KEYBASKET_NUMBERS, not a number, as the length of the array.
     */
    KEYBASKET_NUMBERS = 8
};

/* Entry codes: what a text is read as. All but the first are also the kinds of literals. */
enum keybasket_entry {
    KEYBASKET_ANY = 0,
    KEYBASKET_BOOL = 1,
    KEYBASKET_INTEGER = 2,
    KEYBASKET_FLOAT = 3,
    KEYBASKET_CHAR = 4,
    KEYBASKET_STRING = 5,
    KEYBASKET_BYTE = 6,
    KEYBASKET_BYTE_STRING = 7,
    KEYBASKET_C_STRING = 8
};

/*
 * Type codes: the types that a suffix can name. keybasket_value takes 1 to 4 and 7 to 10, and refuses every other code with 42.
 */
enum keybasket_type {
    KEYBASKET_NO_TYPE = 0,
    KEYBASKET_U8 = 1,
    KEYBASKET_U16 = 2,
    KEYBASKET_U32 = 3,
    KEYBASKET_U64 = 4,
    KEYBASKET_U128 = 5,
    KEYBASKET_USIZE = 6,
    KEYBASKET_I8 = 7,
    KEYBASKET_I16 = 8,
    KEYBASKET_I32 = 9,
    KEYBASKET_I64 = 10,
    KEYBASKET_I128 = 11,
    KEYBASKET_ISIZE = 12,
    KEYBASKET_F32 = 13,
    KEYBASKET_F64 = 14
};

/*
 * Why a text is refused: X(number, constant, name) for each refusal number, in order. The constants below and keybasket_refusal_name are
 * made from this list.
 *
 * Where several reasons hold, the number is the first of 42, 43, 44, a reading's own (1 to 41), 45 or 46, 47, 48, 53. Which numbers a call can
 * return is said at the call. 49 to 52 are not used.
 */
#define KEYBASKET_REFUSALS(X)                                                           \
    X(1, KEYBASKET_EMPTY, "Empty")                                                      \
    X(2, KEYBASKET_UNEXPECTED_CHAR, "UnexpectedChar")                                   \
    X(3, KEYBASKET_INVALID_LITERAL, "InvalidLiteral")                                   \
    X(4, KEYBASKET_DOES_NOT_START_WITH_DIGIT, "DoesNotStartWithDigit")                  \
    X(5, KEYBASKET_INVALID_DIGIT, "InvalidDigit")                                       \
    X(6, KEYBASKET_NO_DIGITS, "NoDigits")                                               \
    X(7, KEYBASKET_NO_EXPONENT_DIGITS, "NoExponentDigits")                              \
    X(8, KEYBASKET_UNKNOWN_ESCAPE, "UnknownEscape")                                     \
    X(9, KEYBASKET_UNTERMINATED_ESCAPE, "UnterminatedEscape")                           \
    X(10, KEYBASKET_INVALID_X_ESCAPE, "InvalidXEscape")                                 \
    X(11, KEYBASKET_NON_ASCII_X_ESCAPE, "NonAsciiXEscape")                              \
    X(12, KEYBASKET_UNICODE_ESCAPE_IN_BYTE_LITERAL, "UnicodeEscapeInByteLiteral")       \
    X(13, KEYBASKET_INVALID_START_OF_UNICODE_ESCAPE, "InvalidStartOfUnicodeEscape")     \
    X(14, KEYBASKET_UNICODE_ESCAPE_WITHOUT_BRACE, "UnicodeEscapeWithoutBrace")          \
    X(15, KEYBASKET_NON_HEX_DIGIT_IN_UNICODE_ESCAPE, "NonHexDigitInUnicodeEscape")      \
    X(16, KEYBASKET_TOO_MANY_DIGIT_IN_UNICODE_ESCAPE, "TooManyDigitInUnicodeEscape")    \
    X(17, KEYBASKET_INVALID_UNICODE_ESCAPE_CHAR, "InvalidUnicodeEscapeChar")            \
    X(18, KEYBASKET_UNTERMINATED_UNICODE_ESCAPE, "UnterminatedUnicodeEscape")           \
    X(19, KEYBASKET_UNTERMINATED_CHAR_LITERAL, "UnterminatedCharLiteral")               \
    X(20, KEYBASKET_OVERLONG_CHAR_LITERAL, "OverlongCharLiteral")                       \
    X(21, KEYBASKET_EMPTY_CHAR_LITERAL, "EmptyCharLiteral")                             \
    X(22, KEYBASKET_UNTERMINATED_BYTE_LITERAL, "UnterminatedByteLiteral")               \
    X(23, KEYBASKET_OVERLONG_BYTE_LITERAL, "OverlongByteLiteral")                       \
    X(24, KEYBASKET_EMPTY_BYTE_LITERAL, "EmptyByteLiteral")                             \
    X(25, KEYBASKET_NON_ASCII_IN_BYTE_LITERAL, "NonAsciiInByteLiteral")                 \
    X(26, KEYBASKET_UNESCAPED_SINGLE_QUOTE, "UnescapedSingleQuote")                     \
    X(27, KEYBASKET_UNESCAPED_SPECIAL_WHITESPACE, "UnescapedSpecialWhitespace")         \
    X(28, KEYBASKET_DOES_NOT_START_WITH_QUOTE, "DoesNotStartWithQuote")                 \
    X(29, KEYBASKET_UNTERMINATED_RAW_STRING, "UnterminatedRawString")                   \
    X(30, KEYBASKET_UNTERMINATED_STRING, "UnterminatedString")                          \
    X(31, KEYBASKET_INVALID_STRING_LITERAL_START, "InvalidStringLiteralStart")          \
    X(32, KEYBASKET_INVALID_BYTE_LITERAL_START, "InvalidByteLiteralStart")              \
    X(33, KEYBASKET_INVALID_BYTE_STRING_LITERAL_START, "InvalidByteStringLiteralStart") \
    X(34, KEYBASKET_INVALID_C_STRING_LITERAL_START, "InvalidCStringLiteralStart")       \
    X(35, KEYBASKET_DISALLOWED_NUL_ESCAPE, "DisallowedNulEscape")                       \
    X(36, KEYBASKET_NUL_BYTE, "NulByte")                                                \
    X(37, KEYBASKET_CARRIAGE_RETURN, "CarriageReturn")                                  \
    X(38, KEYBASKET_TOO_MANY_HASHES, "TooManyHashes")                                   \
    X(39, KEYBASKET_INVALID_SUFFIX, "InvalidSuffix")                                    \
    X(40, KEYBASKET_UNEXPECTED_INTEGER_LIT, "UnexpectedIntegerLit")                     \
    X(41, KEYBASKET_INTEGER_SUFFIX_STARTING_WITH_E, "IntegerSuffixStartingWithE")       \
    X(42, KEYBASKET_BAD_CODE, "BadCode")                                                \
    X(43, KEYBASKET_TEXT_TOO_LONG, "TextTooLong")                                       \
    X(44, KEYBASKET_NOT_UTF8, "NotUtf8")                                                \
    X(45, KEYBASKET_NO_VALUE, "NoValue")                                                \
    X(46, KEYBASKET_POWER_TOO_FAR, "PowerTooFar")                                       \
    X(47, KEYBASKET_FORM_TOO_LONG, "FormTooLong")                                       \
    X(48, KEYBASKET_OUT_TOO_SMALL, "OutTooSmall")                                       \
    X(53, KEYBASKET_TOO_MANY_DIGITS, "TooManyDigits")

enum keybasket_refusal {
#define KEYBASKET_CONSTANT_(number, constant, name) constant = number,
    KEYBASKET_REFUSALS(KEYBASKET_CONSTANT_)
#undef KEYBASKET_CONSTANT_
};

/*
 * Returns the name of a refusal number, "Empty" for 1 to "OutTooSmall" for 48 and "TooManyDigits" for 53, and "?" for every other number. Never
 * null. The string is constant and lasts as long as the program.
 */
static inline const char *keybasket_refusal_name(uint64_t number)
{
    switch (number) {
#define KEYBASKET_CASE_(number, constant, name) \
    case constant:                              \
        return name;
        KEYBASKET_REFUSALS(KEYBASKET_CASE_)
#undef KEYBASKET_CASE_
    default:
        return "?";
    }
}

/*
 * The calls. Each takes a text of text_len bytes, or a name of name_len, and never changes it. Every text and every name is taken, of any bytes
 * and any length: it need not be UTF-8, it may hold zero bytes, and no zero byte ends it or what is written. So is every code: an unknown one
 * is refused. The text is the literal alone: a blank or a line end before or after it is part of the text, and such a text is refused.
 *
 * The caller sees to it that
 * - text points to text_len readable bytes, name to name_len readable bytes, out to out_len writable bytes, value to one uint64_t, and numbers
 *   to KEYBASKET_NUMBERS of them;
 * - all of that memory is initialised before the call, also out, numbers and *value (`= {0}` will do);
 * - what is read and what is written do not overlap;
 * - no pointer is null, not even at length 0;
 * - no other thread writes any of it, or reads what is written, during the call.
 *
 * Nothing is allocated, and nothing is kept from one call to the next. Calls may run in several threads at once.
 */

/*
 * Reads a text by an entry code, and writes all eight numbers of the reading to numbers.
 *
 *                  numbers[0]   [1]               [2]                    [3]                      [4]
 *     refused      0            refusal number    1, or 0 for no span    start of span, or 0      end of span, or 0
 *     bool         1            start of suffix   1 true, 0 false        0                        0
 *     integer      2            start of suffix   base: 2, 8, 10, 16     start of digits          end of digits
 *     float        3            start of suffix   end of integer part    end of fractional part   end of exponent
 *     char         4            start of suffix   scalar value           0                        0
 *     string       5            start of suffix   1 raw, 0 not raw       hashes, 0 if not raw     length of decoded value
 *     byte         6            start of suffix   value                  0                        0
 *     byte string  7            start of suffix   1 raw, 0 not raw       hashes, 0 if not raw     length of decoded value
 *     C string     8            start of suffix   1 raw, 0 not raw       hashes, 0 if not raw     length of decoded value
 *
 *                  numbers[5]                   [6]                             [7]
 *     integer      how many digits              0                               0
 *     float        digits of integer part       digits of fractional part       digits of exponent
 *     all others   0                            0                               0
 *
 * Starts and ends are offsets into the text in bytes, at most text_len; an end is excluded. The suffix ends with the text, so it has
 * text_len - numbers[1] bytes.
 * - A refusal's span has start <= end <= text_len. From 42 on there is no span, and some of 1 to 41 have none.
 * - An integer's digits stand after the prefix of the base, and may hold `_`. The suffix starts where they end.
 * - A float's integer part starts at 0, its fractional part (with the period) where the integer part ends, and its exponent (with `e` or
 *   `E`) where the fractional part ends. A part that is missing ends where it starts. The suffix starts where the exponent ends.
 * - The digits that count are the bytes of the part that are digits of the base, in base 16 also a to f and A to F. Leading zeros count. `_`
 *   does not, nor does the prefix of the base, the period, or the `e` and the sign of an exponent. A part that is missing has 0 digits, and
 *   so has a bare period.
 * - A decoded value has at most text_len bytes. A C string's has no closing zero byte.
 *
 * Returns nothing. Refusal numbers: 1 to 41; 42 for an entry code above 8; 43 for a text above KEYBASKET_LONGEST bytes; 44 for a text that is
 * not UTF-8.
 */
void keybasket_read(uint64_t entry, const uint8_t *text, size_t text_len, uint64_t numbers[KEYBASKET_NUMBERS]);

/*
 * Reads a text that was typed in: as keybasket_read does by KEYBASKET_ANY, with the same eight numbers, but refuses a number with too many
 * digits. Too many has
 * - an integer with over 40 digits, in any base (numbers[5] by keybasket_read);
 * - a float with over 40 digits in integer part and fractional part together (numbers[5] + numbers[6]), whatever its exponent has.
 * The digits that count are those above: leading zeros do, `_` does not. No other kind has too many, not even a string of digits.
 *
 * Returns nothing. Refusal numbers, in this order: 43, 44, 1 to 41, all as keybasket_read writes them by KEYBASKET_ANY; then 53 for a number
 * with too many digits. 53 has no span: numbers are {0, 53, 0, 0, 0, 0, 0, 0}.
 */
void keybasket_read_keyed(const uint8_t *text, size_t text_len, uint64_t numbers[KEYBASKET_NUMBERS]);

/*
 * Reads a text as an integer, as keybasket_read does by KEYBASKET_INTEGER, and writes its number to *value where it is at most the largest
 * value of the type: 255 for KEYBASKET_U8, 127 for KEYBASKET_I8. There are no negative numbers. The text's suffix is read, but it names no
 * type here. There is no call for a float's number: its settled form is exact.
 *
 * Returns 0. Or returns KEYBASKET_REFUSED plus the refusal number; *value is then unchanged. Refusal numbers: 1 to 41, 42 for a type code other than 1
 * to 4 and 7 to 10, 43, 44, and 45 for a number above the type's largest. The span of 1 to 41 is what keybasket_read writes by
 * KEYBASKET_INTEGER.
 */
size_t keybasket_value(uint64_t type, const uint8_t *text, size_t text_len, uint64_t *value);

/*
 * Reads a text as a string, a byte string or a C string, by entry code 5, 7 or 8, and writes its decoded bytes to the front of out, a
 * buffer of out_len bytes. No closing zero byte is written. out_len = text_len is always enough, and so is KEYBASKET_LONGEST.
 *
 * Returns how many bytes were written, which is at most out_len; the bytes of out after them are unchanged. Or returns KEYBASKET_REFUSED plus
 * the refusal number; all of out is then unchanged. Refusal numbers: 1 to 41, 42 for every other code, 43, 44, and 48 exactly where all
 * else is well and the decoded value is longer than out_len. The span of 1 to 41 is what keybasket_read writes by the same entry code.
 */
size_t keybasket_decode(uint64_t entry, const uint8_t *text, size_t text_len, uint8_t *out, size_t out_len);

/*
 * Settles a text: reads it as any literal and writes the literal's settled form to the front of out, a buffer of out_len bytes. The form of
 * an integer is its decimal number; that of a float is m, `e`, k for the number m times 10^k, where m does not end in 0 (k is the reduced
 * power of ten; zero is `0e0`); that of a quoted literal is never raw. The suffix follows unchanged. No closing zero byte is written. out_len = KEYBASKET_LONGEST is always enough; text_len is not, since a form can be longer than its text.
 *
 * Returns the form's length, which is at most out_len; the bytes of out after the form are unchanged. Or returns KEYBASKET_REFUSED plus the
 * refusal number; all of out is then unchanged. Refusal numbers: 1 to 41, 43, 44, 45 for an integer above 2^64 - 1, 46 for a float whose
 * reduced power of ten is beyond 1,000,000 either way, 47 for a form above KEYBASKET_LONGEST bytes, and 48 exactly where all else is well
 * and the form is longer than out_len. The span of 1 to 41 is what keybasket_read writes by KEYBASKET_ANY.
 *
 * Two texts that both have forms have the same kind, exact value and suffix exactly when their forms have the same length and the same
 * bytes. Of a refused text this says nothing.
 */
size_t keybasket_settle(const uint8_t *text, size_t text_len, uint8_t *out, size_t out_len);

/*
 * Returns the code of the integer type that a name of name_len bytes stands for, 1 to 12: KEYBASKET_U8 for `u8`, KEYBASKET_ISIZE for `isize`.
 * Returns KEYBASKET_NO_TYPE (0) for every other name, of any bytes and any length, also for an empty one and for `f32`. Nothing is refused.
 *
 * The name is a suffix without its literal: of a text read by keybasket_read, text + numbers[1] with length text_len - numbers[1].
 */
uint64_t keybasket_integer_from_suffix(const uint8_t *name, size_t name_len);

/*
 * The same for float types: returns KEYBASKET_F32 (13) for `f32`, KEYBASKET_F64 (14) for `f64`, and KEYBASKET_NO_TYPE (0) for every other name.
 */
uint64_t keybasket_float_from_suffix(const uint8_t *name, size_t name_len);

#ifdef __cplusplus
}
#endif

#endif
