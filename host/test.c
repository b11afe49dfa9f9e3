/*
 * Tests the exported functions from C: the marked cases P1 to P13 of document 01, records that are empty, cut or damaged, names that are
 * keywords of C++ (16), lines `bits` (17), the head lines `trailing`, `raw` and `products`, whole files (19), buffers of every relevant
 * size, and the cases of the stored sample, which the judge answered (oracle/README.md, 'Cases'); lower_all is held to single calls there.
 *   test SAMPLE
 * The last line is 'N passed, M failed'; the exit status is 0 if nothing failed.
 */
#include <stdarg.h>
#include <stdio.h>
#include <stdlib.h>
#include <string.h>

#include "ruphwenqo.h"

/* ---- what is counted */

static unsigned passed, failed;

static void expect(int ok, const char *what, ...)
{
    va_list words;
    if (ok) {
        passed++;
        return;
    }
    failed++;
    fputs("failed: ", stdout);
    va_start(words, what);
    vprintf(what, words);
    va_end(words);
    putchar('\n');
}

/* ---- a call, in a buffer whose bytes are all marked before it */

typedef uint64_t lowering(const uint8_t *record, size_t record_len, uint8_t *out, size_t out_len);

#define AROUND 64 /* bytes on each side of what is lent */
static uint8_t memory[AROUND + RUPHWENQO_ALL_ROOM + AROUND];
static uint8_t *const lines = memory + AROUND;

/* No line has a byte of 128 or more. */
static uint8_t mark(size_t i)
{
    return (uint8_t)(128 + i % 128);
}

/* Whether the bytes of memory behind the first `length` ones of the lines, and those in front of them, are as they were marked. */
static int unchanged_but(size_t length)
{
    for (size_t i = 0; i < sizeof memory; i++)
        if ((i < AROUND || i >= AROUND + length) && memory[i] != mark(i))
            return 0;
    return 1;
}

/* Whether a call on a record, with `room` bytes lent, gets this answer and these lines, and no other byte is changed. */
static int call_gives(lowering *call, const uint8_t *record, size_t record_length, size_t room, uint32_t answer, const uint8_t *text, size_t length)
{
    for (size_t i = 0; i < sizeof memory; i++)
        memory[i] = mark(i);
    uint64_t number = call(record, record_length, lines, room);
    return ruphwenqo_answer(number) == answer && ruphwenqo_length(number) == length && memcmp(lines, text, length) == 0 && unchanged_but(length);
}

/* The same with each size of buffer: `most` bytes, the exact length, one less and none, where 15 is due if there are lines. */
static int call_gives_in_every_room(lowering *call, size_t most, const uint8_t *record, size_t record_length, uint32_t answer, const uint8_t *text,
                                    size_t length)
{
    return call_gives(call, record, record_length, most, answer, text, length)
        && call_gives(call, record, record_length, length, answer, text, length)
        && (length == 0
            || (call_gives(call, record, record_length, length - 1, 15, text, 0) && call_gives(call, record, record_length, 0, 15, text, 0)));
}

/* Of lower. */
static int gives(const uint8_t *record, size_t record_length, size_t room, uint32_t answer, const uint8_t *text, size_t length)
{
    return call_gives(lower, record, record_length, room, answer, text, length);
}

static int gives_in_every_room(const uint8_t *record, size_t record_length, uint32_t answer, const uint8_t *text, size_t length)
{
    return call_gives_in_every_room(lower, RUPHWENQO_LINES_ROOM, record, record_length, answer, text, length);
}

/* ---- the marked cases of document 01 */

#define HEAD "endian=little\ntarget=Lamp\narrays=lite\n"
#define LAMP "decl=packet\nname=Lamp\nparent=-\n"
#define CELL "decl=struct\nname=Cell\nparent=-\n" SCALAR("c", "8")
#define SCALAR(id, width) "field=scalar\nid=" id "\nwidth=" width "\nif=-\n"
#define OPTIONAL(id, width) "field=scalar\nid=" id "\nwidth=" width "\nif=c\nis=1\n"
#define RESERVED(width) "field=reserved\nwidth=" width "\nif=-\n"
#define PAYLOAD "field=payload\nmod=-\nif=-\n"
#define PAYLOAD_SIZE "field=size\nof=_payload_\nwidth=8\nif=-\n"
#define ARRAY(id, width, count) "field=array\nid=" id "\nwidth=" width "\ntype=-\nmod=-\ncount=" count "\nif=-\n"
#define PADDING(bytes) "field=padding\nbytes=" bytes "\nif=-\n"
#define TYPEDEF(id, type) "field=typedef\nid=" id "\ntype=" type "\nif=-\n"
#define CHECK(bytes) "if (span.size() < " bytes ") {\n    return false;\n}\n"
#define P1_RUN CHECK("2") "uint16_t chunk0 = span.read_le<uint16_t, 2>();\namps_ = (chunk0 >> 0) & 0xfff;\n"

static const struct {
    const char *label, *record;
    uint32_t answer;
    const char *whole; /* all of the lines, where document 01 gives them, else */
    const char *part;  /* something that it says of them */
} marked[] = {
    {"P1", HEAD LAMP SCALAR("amps", "12") RESERVED("4") PAYLOAD, 0, P1_RUN "payload_ = span;\nspan.clear();\n", NULL},
    {"P2", HEAD LAMP, 0, "", NULL},
    {"P3", HEAD LAMP RESERVED("16"), 0, CHECK("2") "span.skip(2); // skip reserved fields\n", NULL},
    {"P4", HEAD LAMP SCALAR("x", "24"), 0, CHECK("3") "x_ = span.read_le<uint32_t, 3>();\n", NULL},
    {"P5", HEAD LAMP SCALAR("x", "60") SCALAR("y", "4"), 0, NULL, CHECK("8")},
    {"P6", HEAD LAMP SCALAR("x", "60") SCALAR("y", "12"), 12, "", NULL},
    {"P7", HEAD LAMP SCALAR("x", "60") SCALAR("y", "5") SCALAR("z", "7"), 12, "", NULL},
    {"P8", HEAD LAMP SCALAR("x", "4"), 0, "", NULL},
    {"P9", HEAD LAMP SCALAR("x", "8") SCALAR("y", "4"), 10, "", NULL},
    {"P10", HEAD CELL LAMP SCALAR("x", "4") TYPEDEF("t", "Cell"), 11, "", NULL},
    {"P10, a scalar before", HEAD CELL LAMP SCALAR("x", "8") SCALAR("y", "4") TYPEDEF("t", "Cell"), 10, "", NULL},
    {"P11", HEAD LAMP PAYLOAD SCALAR("x", "8"), 0, NULL, "if (span.size() < 1) return false;\n"},
    {"P12", HEAD LAMP PAYLOAD OPTIONAL("x", "8"), 14, "", NULL},
    {"P12, with a size", HEAD LAMP PAYLOAD_SIZE PAYLOAD OPTIONAL("x", "8"), 0, NULL, CHECK("1")},
    {"P13", HEAD LAMP PAYLOAD ARRAY("a", "8", "2") PADDING("8"), 0, NULL, "if (span.size() < 2) return false;\n"},
};
#define MARKED (sizeof marked / sizeof marked[0])

static void test_marked(void)
{
    for (size_t i = 0; i < MARKED; i++) {
        const uint8_t *record = (const uint8_t *)marked[i].record;
        size_t length = strlen(marked[i].record);
        if (marked[i].whole != NULL) {
            const char *text = marked[i].whole;
            expect(gives_in_every_room(record, length, marked[i].answer, (const uint8_t *)text, strlen(text)), "%s", marked[i].label);
        } else {
            uint64_t number = lower(record, length, lines, RUPHWENQO_LINES_ROOM);
            size_t part = strlen(marked[i].part);
            expect(ruphwenqo_answer(number) == marked[i].answer && ruphwenqo_length(number) >= part && memcmp(lines, marked[i].part, part) == 0,
                   "%s", marked[i].label);
        }
    }
}

/* ---- empty, long, cut and damaged records */

/* What is left of P1's record when it is cut behind `length` bytes is accepted only where a declaration or a field ends. */
static void test_cut(void)
{
    static const char declaration[] = HEAD LAMP, open_chunk[] = HEAD LAMP SCALAR("amps", "12"), run[] = HEAD LAMP SCALAR("amps", "12") RESERVED("4");
    const char *record = marked[0].record;
    for (size_t length = 0; length < strlen(record); length++) {
        uint32_t answer = length == 0 ? 1 : 2;
        const char *text = "";
        if (length == strlen(declaration) || length == strlen(open_chunk))
            answer = 0;
        if (length == strlen(run)) {
            answer = 0;
            text = P1_RUN;
        }
        expect(gives_in_every_room((const uint8_t *)record, length, answer, (const uint8_t *)text, strlen(text)), "P1 cut behind %zu bytes", length);
    }
}

/* No record has a byte of 255: in each place of P1's record it is a broken line. */
static void test_damaged(void)
{
    uint8_t record[512];
    size_t length = strlen(marked[0].record);
    for (size_t i = 0; i < length; i++) {
        memcpy(record, marked[0].record, length);
        record[i] = 255;
        expect(gives(record, length, RUPHWENQO_LINES_ROOM, 2, record, 0), "P1 with byte %zu damaged", i);
    }
}

/* Too long is 1 whatever the bytes are; up to the limit the same bytes are a broken line. */
static void test_long(void)
{
    static uint8_t record[RUPHWENQO_RECORD_MAX + 1];
    memset(record, 'x', sizeof record);
    expect(gives(record, sizeof record, RUPHWENQO_LINES_ROOM, 1, record, 0), "16,385 bytes");
    expect(gives(record, sizeof record - 1, RUPHWENQO_LINES_ROOM, 2, record, 0), "16,384 bytes, no record");
    memcpy(record, marked[0].record, strlen(marked[0].record));
    expect(gives(record, sizeof record, RUPHWENQO_LINES_ROOM, 1, record, 0), "16,385 bytes that begin with P1");
    expect(gives(record, 0, 0, 1, record, 0), "nothing at all");
}

/* ---- names that C++17 keeps for itself: refusal 16 of document 02 */

static const char *const keywords[] = {
    "alignas", "alignof", "asm", "auto", "bool", "break", "case", "catch", "char", "char16_t", "char32_t", "class", "const", "const_cast",
    "constexpr", "continue", "decltype", "default", "delete", "do", "double", "dynamic_cast", "else", "enum", "explicit", "export", "extern",
    "false", "float", "for", "friend", "goto", "if", "inline", "int", "long", "mutable", "namespace", "new", "noexcept", "nullptr", "operator",
    "private", "protected", "public", "register", "reinterpret_cast", "return", "short", "signed", "sizeof", "static", "static_assert",
    "static_cast", "struct", "switch", "template", "this", "thread_local", "throw", "true", "try", "typedef", "typeid", "typename", "union",
    "unsigned", "using", "virtual", "void", "volatile", "wchar_t", "while",
    "and", "and_eq", "bitand", "bitor", "compl", "not", "not_eq", "or", "or_eq", "xor", "xor_eq",
};
#define KEYWORDS (sizeof keywords / sizeof keywords[0])
_Static_assert(KEYWORDS == 73 + 11, "document 02 has 84 words");

/* One of them at each place where a name stands. */
static const struct {
    const char *key, *record;
} places[] = {
    {"target", "endian=little\ntarget=int\narrays=lite\n" LAMP},
    {"name", HEAD "decl=struct\nname=struct\nparent=-\n" LAMP},
    {"parent", HEAD "decl=packet\nname=Lamp\nparent=union\n"},
    {"id", HEAD LAMP "field=flag\nid=register\nif=-\n"},
    {"of", HEAD LAMP "field=size\nof=xor\nwidth=8\nif=-\n"},
    {"type", HEAD LAMP TYPEDEF("t", "wchar_t")},
    {"tag", HEAD LAMP "field=fixedenum\ntype=Mode\ntag=true\nif=-\n"},
    {"if", HEAD LAMP "field=scalar\nid=x\nwidth=8\nif=and\nis=1\n"},
};

static void expect_answer(const char *record, uint32_t answer, const char *text, const char *what, const char *which)
{
    expect(gives_in_every_room((const uint8_t *)record, strlen(record), answer, (const uint8_t *)text, strlen(text)), "%s %s", what, which);
}

/* A scalar of this name is read, or is 16. */
static void test_scalar(const char *name, uint32_t answer)
{
    char record[256], text[256] = "";
    snprintf(record, sizeof record, HEAD LAMP SCALAR("%s", "8"), name);
    if (answer == 0)
        snprintf(text, sizeof text, CHECK("1") "%s_ = span.read_le<uint8_t, 1>();\n", name);
    expect_answer(record, answer, text, "the scalar", name);
}

/* The first part, the second so many times, and the third. */
static const char *joined(const char *first, const char *second, size_t times, const char *third)
{
    static char record[8192];
    char *at = record + sprintf(record, "%s", first);
    while (times-- > 0)
        at += sprintf(at, "%s", second);
    sprintf(at, "%s", third);
    return record;
}

static void test_keywords(void)
{
    for (size_t i = 0; i < KEYWORDS; i++) {
        char name[33];
        test_scalar(keywords[i], 16);
        snprintf(name, sizeof name, "%s1", keywords[i]);
        test_scalar(name, 0);
        snprintf(name, sizeof name, "%c%s", keywords[i][0] - 'a' + 'A', keywords[i] + 1);
        test_scalar(name, 0);
    }
    test_scalar("final", 0);
    test_scalar("char8_t", 0);
    for (size_t i = 0; i < sizeof places / sizeof places[0]; i++)
        expect_answer(places[i].record, 16, "", "a keyword behind", places[i].key);

    /* a broken line anywhere is 2; too many fields or declarations are 3 only where no name is a keyword */
    expect_answer(HEAD LAMP SCALAR("int", "8") "\n", 2, "", "a keyword,", "then an empty line");
    expect_answer(joined(HEAD LAMP, SCALAR("x", "8"), 65, ""), 3, "", "65 fields,", "no keyword");
    expect_answer(joined(HEAD LAMP, SCALAR("x", "8"), 64, SCALAR("int", "8")), 16, "", "65 fields,", "the last is called int");
    expect_answer(joined(HEAD, LAMP, 33, ""), 3, "", "33 declarations,", "no keyword");
    expect_answer(joined(HEAD, LAMP, 32, "decl=packet\nname=int\nparent=-\n"), 16, "", "33 declarations,", "the last is called int");
}

/* ---- sizes that the record states: refusal 17 of document 02 */

#define CHILD "decl=packet\nname=Base\nparent=-\nbits=8\n" SCALAR("b", "8") PAYLOAD "decl=packet\nname=Lamp\nparent=Base\n"

/* What stands before a line `bits` and behind it, what it must say, and what it must not. */
static const struct {
    const char *label, *before, *behind, *right, *wrong[8];
} sizes[] = {
    {"nothing", LAMP, "", "0", {"1", "8", "dynamic", "unknown", "4294967296", "18446744073709551615"}},
    {"a scalar", LAMP, SCALAR("x", "8"), "8", {"7", "9", "0", "1", "4294967304", "2147483656", "dynamic", "unknown"}},
    {"4 bits", LAMP, SCALAR("x", "4"), "4", {"8", "0", "3"}},
    {"an optional scalar", LAMP, OPTIONAL("x", "8"), "dynamic", {"8", "unknown", "2147483648", "2147483649"}},
    {"an array with no size", LAMP, ARRAY("a", "8", "-"), "unknown", {"0", "dynamic", "2147483648", "2147483649"}},
    {"an array", LAMP, ARRAY("a", "24", "5"), "120", {"24", "5", "15"}},
    {"a payload alone", LAMP, PAYLOAD, "0", {"unknown", "dynamic"}},
    {"a payload with a size", LAMP, PAYLOAD_SIZE PAYLOAD, "8", {"dynamic", "unknown"}},
    {"a parent", CHILD, SCALAR("x", "16"), "16", {"24", "8", "unknown"}},
    {"a struct as type", CELL LAMP, TYPEDEF("t", "Cell"), "8", {"0", "16"}},
    {"another declaration", LAMP "decl=struct\nname=Late\nparent=-\n", SCALAR("x", "8"), "8", {"7", "dynamic"}},
    {"a padded array", LAMP, ARRAY("a", "8", "2") PADDING("8"), "64", {"16", "80", "8"}},
    {"a padded optional scalar", LAMP, OPTIONAL("x", "8") PADDING("8"), "64", {"dynamic", "8", "72"}},
    {"a padded payload", LAMP, PAYLOAD PADDING("8"), "0", {"64", "unknown"}},
    {"a padded padding", LAMP, PADDING("8") PADDING("2"), "16", {"0", "64", "80"}},
};

static const char *const no_values[] = {
    "", "-", "00", "08", "+8", "-8", " 8", "8 ", "8\r", "0x8", "18446744073709551616", "18446744073709551624", "99999999999999999999",
    "Dynamic", "dynamic ", "dynamics", "dynami", "Unknown", "unknow", "static", "8\nbits=8", "8\nbits=7", "8\n",
};

static const struct {
    const char *place, *record;
} no_places[] = {
    {"before parent", HEAD "decl=packet\nname=Lamp\nbits=0\nparent=-\n"},
    {"behind a field", HEAD LAMP SCALAR("x", "8") "bits=8\n"},
    {"inside a field", HEAD LAMP "field=scalar\nid=x\nwidth=8\nbits=8\nif=-\n"},
    {"in an enum", HEAD "decl=enum\nname=Mode\nwidth=8\nopen=0\ncomplete=0\nbits=8\n" LAMP},
    {"in a checksum", HEAD "decl=checksum\nname=Crc\nwidth=8\nbits=8\n" LAMP},
    {"in a custom", HEAD "decl=custom\nname=Blob\nwidth=-\nbits=dynamic\n" LAMP},
    {"in the head", HEAD "bits=0\n" LAMP},
    {"at the end, without its newline", HEAD LAMP "bits=0"},
};

/* A record with this line is answered so; once it agrees, by the lines of the record without it. */
static void test_size(const char *label, const char *before, const char *value, const char *behind, uint32_t answer)
{
    static uint8_t text[RUPHWENQO_LINES_ROOM];
    char record[1024];
    size_t length = (size_t)snprintf(record, sizeof record, HEAD "%s%s", before, behind);
    uint64_t number = lower((const uint8_t *)record, length, text, sizeof text);
    size_t lines_length = answer == 0 ? ruphwenqo_length(number) : 0;

    length = (size_t)snprintf(record, sizeof record, HEAD "%sbits=%s\n%s", before, value, behind);
    expect(ruphwenqo_answer(number) == 0 && gives_in_every_room((const uint8_t *)record, length, answer, text, lines_length),
           "%s, stated as %s", label, value);
}

/* P1 with a line `bits`, cut where the line begins and behind: accepted where the fields that are left come to what it says. */
static void test_cut_stated(void)
{
    static const char record[] = HEAD LAMP "bits=16\n" SCALAR("amps", "12") RESERVED("4") PAYLOAD;
    static const char bare[] = HEAD LAMP, line[] = HEAD LAMP "bits=16\n", half[] = HEAD LAMP "bits=16\n" SCALAR("amps", "12");
    static const char run[] = HEAD LAMP "bits=16\n" SCALAR("amps", "12") RESERVED("4");
    for (size_t length = strlen(bare); length < strlen(record); length++) {
        uint32_t answer = length == strlen(bare) || length == strlen(run) ? 0 : 2;
        const char *text = length == strlen(run) ? P1_RUN : "";
        if (length == strlen(line) || length == strlen(half))
            answer = 17;
        expect(gives_in_every_room((const uint8_t *)record, length, answer, (const uint8_t *)text, strlen(text)),
               "P1 with its size, cut behind %zu bytes", length);
    }
}

static void test_sizes(void)
{
    for (size_t i = 0; i < sizeof sizes / sizeof sizes[0]; i++) {
        test_size(sizes[i].label, sizes[i].before, sizes[i].right, sizes[i].behind, 0);
        for (size_t k = 0; k < sizeof sizes[i].wrong / sizeof sizes[i].wrong[0] && sizes[i].wrong[k] != NULL; k++)
            test_size(sizes[i].label, sizes[i].before, sizes[i].wrong[k], sizes[i].behind, 17);
    }
    for (size_t i = 0; i < sizeof no_values / sizeof no_values[0]; i++)
        test_size("a scalar", LAMP, no_values[i], SCALAR("x", "8"), 2);
    for (size_t i = 0; i < sizeof no_places / sizeof no_places[0]; i++)
        expect_answer(no_places[i].record, 2, "", "a line `bits`", no_places[i].place);

    /* 16, 3, 6 and 8 come before it, 9 and 10 behind it */
    expect_answer(HEAD LAMP "bits=7\n" SCALAR("int", "8"), 16, "", "a wrong size", "and a keyword");
    expect_answer(joined(HEAD LAMP "bits=7\n", SCALAR("x", "8"), 65, ""), 3, "", "a wrong size", "and 65 fields");
    expect_answer(HEAD LAMP "bits=7\n" SCALAR("x", "65"), 6, "", "a wrong size", "and a width of 65");
    expect_answer(HEAD LAMP "bits=7\n" ARRAY("a", "12", "2"), 8, "", "a wrong size", "and elements of 12 bits");
    expect_answer("endian=little\ntarget=None\narrays=lite\n" LAMP "bits=7\n", 17, "", "a wrong size", "and no target");
    expect_answer("endian=little\ntarget=None\narrays=lite\n" LAMP "bits=0\n", 9, "", "a right size", "and no target");
    expect_answer(HEAD LAMP "bits=7\n" SCALAR("x", "8") SCALAR("y", "4"), 17, "", "a wrong size", "and an open chunk");
    expect_answer(HEAD LAMP "bits=12\n" SCALAR("x", "8") SCALAR("y", "4"), 10, "", "a right size", "and an open chunk");
}

/* ---- what a padded array counts behind a payload: the head line `trailing` of document 02 */

#define REST "decl=struct\nname=Rest\nparent=-\n" PAYLOAD
#define BLOB "decl=custom\nname=Blob\nwidth=-\n"
#define COUNT "field=count\nof=a\nwidth=8\nif=-\n"
#define ARRAY_OF(id, type, count) "field=array\nid=" id "\nwidth=-\ntype=" type "\nmod=-\ncount=" count "\nif=-\n"
#define CHECKSUM "field=checksum\nof=k\nif=-\n"
#define PLAIN "trailing=plain\n"
#define PADDED "trailing=padded\n"

/* Fields behind a payload, and the bytes that are left for them, with the line absent or plain, and padded; NULL is 14. */
static const struct {
    const char *label, *fields, *plain, *padded;
} trailing[] = {
    {"P13", ARRAY("a", "8", "2") PADDING("8"), "2", "8"},
    {"a padded array between scalars", SCALAR("x", "8") ARRAY("a", "8", "2") PADDING("8") SCALAR("y", "16"), "5", "11"},
    {"a padded array with a count field", COUNT ARRAY("a", "8", "-") PADDING("4"), NULL, "5"},
    {"a padded array with no size", ARRAY("a", "8", "-") PADDING("4"), NULL, "4"},
    {"a padded array of elements that vary", ARRAY_OF("a", "Blob", "2") PADDING("4"), NULL, "4"},
    {"two padded arrays", ARRAY("a", "8", "2") PADDING("4") ARRAY("b", "8", "-") PADDING("65535"), NULL, "65539"},
    {"a padding smaller than its array", ARRAY("a", "8", "4") PADDING("2"), "4", "2"},
    {"a padding of nothing", ARRAY("a", "8", "2") PADDING("0"), "2", ""},
    {"two paddings", ARRAY("a", "8", "2") PADDING("3") PADDING("8"), "2", "3"},
    {"bits around a padded array", SCALAR("x", "4") ARRAY("a", "8", "2") PADDING("8") SCALAR("y", "4"), "3", "9"},
    {"a checksum before the padding", ARRAY("a", "8", "2") CHECKSUM PADDING("8"), "2", "2"},
    {"no padding", ARRAY("a", "8", "-"), NULL, NULL},
    {"a padded array and one that is not", ARRAY("a", "8", "-") PADDING("4") ARRAY("b", "8", "-"), NULL, NULL},
    {"a padded scalar", SCALAR("x", "8") PADDING("4"), "1", "1"},
    {"a padded typedef", TYPEDEF("t", "Cell") PADDING("4"), "1", "1"},
    {"a padded typedef that varies", TYPEDEF("t", "Blob") PADDING("4"), NULL, NULL},
};

/* The payload's lines, where so many bytes are left behind it, and the lines of the fields alone; or 14. */
static void test_trailing_bytes(const char *label, const char *line, const char *fields, const char *bytes)
{
    static char text[RUPHWENQO_LINES_ROOM];
    char record[1024];
    size_t length = 0;
    if (bytes != NULL) {
        size_t alone = (size_t)snprintf(record, sizeof record, HEAD CELL BLOB LAMP "%s", fields);
        if (*bytes == 0)
            length = (size_t)sprintf(text, "payload_ = span;\nspan.clear();\n");
        else
            length = (size_t)sprintf(text,
                                     "if (span.size() < %s) return false;\npayload_ = span.subrange(0, span.size() - %s);\n"
                                     "span.skip(span.size() - %s);\n",
                                     bytes, bytes, bytes);
        uint64_t number = lower((const uint8_t *)record, alone, (uint8_t *)text + length, sizeof text - length);
        expect(ruphwenqo_answer(number) == 0, "%s, without a payload", label);
        length += ruphwenqo_length(number);
    }
    size_t whole = (size_t)snprintf(record, sizeof record, HEAD "%s" CELL BLOB LAMP PAYLOAD "%s", line, fields);
    expect(gives_in_every_room((const uint8_t *)record, whole, bytes == NULL ? 14 : 0, (const uint8_t *)text, length), "%s, %s", label,
           *line == 0 ? "no line" : line);
}

static const char *const no_trailing[] = {
    "trailing=\n", "trailing=-\n", "trailing=Plain\n", "trailing=Padded\n", "trailing=PADDED\n", "trailing= padded\n", "trailing=padded \n",
    "trailing=padded\r\n", "trailing=padde\n", "trailing=paddedd\n", "trailing=plain0\n", "trailing=0\n", "trailing=plainpadded\n",
    "Trailing=padded\n", "trailin=padded\n", "trailings=padded\n", " trailing=padded\n", "trailing =padded\n", "trailing==padded\n",
    "trailing:padded\n", "trailing\n", "padded\n", "trailing=padded", "\n" PADDED, PADDED "\n", PLAIN PLAIN, PADDED PADDED, PLAIN PADDED,
    PADDED PLAIN, PADDED "arrays=lite\n", "raw=padded\n", "products=padded\n", "raw=plain\n" PADDED, "products=plain\n" PADDED,
};

/* An optional line of the head where it does not belong; `other` is a declaration. */
#define MISPLACED(line, other) \
    {"first", line HEAD LAMP}, \
    {"before target", "endian=little\n" line "target=Lamp\narrays=lite\n" LAMP}, \
    {"before arrays", "endian=little\ntarget=Lamp\n" line "arrays=lite\n" LAMP}, \
    {"in place of arrays", "endian=little\ntarget=Lamp\n" line LAMP}, \
    {"before name", HEAD "decl=packet\n" line "name=Lamp\nparent=-\n"}, \
    {"before parent", HEAD "decl=packet\nname=Lamp\n" line "parent=-\n"}, \
    {"behind parent", HEAD LAMP line}, \
    {"behind bits", HEAD LAMP "bits=0\n" line}, \
    {"behind another declaration", HEAD other line LAMP}, \
    {"inside a field", HEAD LAMP "field=body\n" line "if=-\n"}, \
    {"behind a field", HEAD LAMP "field=body\nif=-\n" line}, \
    {"before a second declaration", HEAD LAMP line CELL}, \
    {"in the head and at the end", HEAD line LAMP line}, \
    {"before no declaration", HEAD line},

static const struct {
    const char *place, *record;
} no_trailing_places[] = { MISPLACED(PADDED, CELL) };

/* Behind HEAD and this line, packets of scalars with names as long as it takes: a record of so many bytes. */
static size_t long_record(char *record, const char *line, size_t length)
{
    char *at = record + sprintf(record, "%s%s%s", HEAD, line, LAMP), *end = record + length;
    for (unsigned fields = 0; at < end; fields++) {
        if (fields != 0 && fields % 64 == 0)
            at += sprintf(at, "decl=packet\nname=P%u\nparent=-\n", fields);
        size_t left = (size_t)(end - at), bare = strlen(SCALAR("", "8"));
        size_t name = left < bare + 33 ? left - bare : left < 2 * bare + 33 ? 1 : 32;
        at += sprintf(at, SCALAR("%.*s", "8"), (int)name, "xxxxxxxxxxxxxxxxxxxxxxxxxxxxxxxx");
    }
    return (size_t)(at - record);
}

/* The line counts among the 16,384 bytes; up to them the lines are those of the record without it. */
static void test_long_line(const char *line)
{
    static char record[RUPHWENQO_RECORD_MAX + 100];
    static uint8_t text[RUPHWENQO_LINES_ROOM];
    size_t length = long_record(record, "", RUPHWENQO_RECORD_MAX - strlen(line));
    uint64_t number = lower((const uint8_t *)record, length, text, sizeof text);
    expect(length == RUPHWENQO_RECORD_MAX - strlen(line) && ruphwenqo_answer(number) == 0, "a long record without %s", line);
    length = long_record(record, line, RUPHWENQO_RECORD_MAX);
    expect(length == RUPHWENQO_RECORD_MAX && gives_in_every_room((const uint8_t *)record, length, 0, text, ruphwenqo_length(number)),
           "16,384 bytes with %s", line);
    length = long_record(record, line, RUPHWENQO_RECORD_MAX + 1);
    expect(length == RUPHWENQO_RECORD_MAX + 1 && gives((const uint8_t *)record, length, RUPHWENQO_LINES_ROOM, 1, text, 0),
           "16,385 bytes with %s", line);
}

static void test_trailing(void)
{
    for (size_t i = 0; i < sizeof trailing / sizeof trailing[0]; i++) {
        test_trailing_bytes(trailing[i].label, "", trailing[i].fields, trailing[i].plain);
        test_trailing_bytes(trailing[i].label, PLAIN, trailing[i].fields, trailing[i].plain);
        test_trailing_bytes(trailing[i].label, PADDED, trailing[i].fields, trailing[i].padded);
    }
    for (size_t i = 0; i < sizeof no_trailing / sizeof no_trailing[0]; i++) {
        char record[256];
        snprintf(record, sizeof record, HEAD "%s" LAMP, no_trailing[i]);
        expect_answer(record, 2, "", "a head with", no_trailing[i]);
    }
    for (size_t i = 0; i < sizeof no_trailing_places / sizeof no_trailing_places[0]; i++)
        expect_answer(no_trailing_places[i].record, 2, "", "a line `trailing`", no_trailing_places[i].place);
    test_long_line(PLAIN);
    test_long_line(PADDED);

    /* a typedef of unknown size, a payload with a size, and no payload at all */
#define NESTED(bytes) \
    "if (span.size() < " bytes ") return false;\npdl::packet::slice t_span = span.subrange(0, span.size() - " bytes ");\n" \
    "if (!Rest::Parse(t_span, &t_)) return false;\nspan.skip(t_span.size());\n"
#define TWO_OF_EIGHT \
    "size_t a_start_size = span.size();\n" CHECK("2") "a_ = span.subrange(0, 2);\nspan.skip(2);\nif (a_start_size - span.size() < 8) {\n" \
    "    if (span.size() < 8 - (a_start_size - span.size())) return false;\n    span.skip(8 - (a_start_size - span.size()));\n}\n"
    expect_answer(HEAD REST LAMP TYPEDEF("t", "Rest") ARRAY("a", "8", "2") PADDING("8"), 0, NESTED("2") TWO_OF_EIGHT, "a typedef,", "no line");
    expect_answer(HEAD PADDED REST LAMP TYPEDEF("t", "Rest") ARRAY("a", "8", "2") PADDING("8"), 0, NESTED("8") TWO_OF_EIGHT, "a typedef,", PADDED);
    expect_answer(HEAD REST LAMP TYPEDEF("t", "Rest") ARRAY("a", "8", "-") PADDING("8"), 14, "", "a typedef, an array with no size,", "no line");
    expect_answer(HEAD PADDED LAMP PAYLOAD ARRAY("a", "8", "2") PADDING("8"), 0,
                  "if (span.size() < 8) return false;\npayload_ = span.subrange(0, span.size() - 8);\nspan.skip(span.size() - 8);\n" TWO_OF_EIGHT,
                  "P13,", PADDED);
    expect_answer(HEAD PADDED LAMP ARRAY("a", "8", "2") PADDING("8"), 0, TWO_OF_EIGHT, "a padded array alone,", PADDED);

    /* optional: 14 under both, and 13 where no trailing size is needed */
    expect_answer(HEAD PADDED LAMP PAYLOAD "field=array\nid=a\nwidth=8\ntype=-\nmod=-\ncount=2\nif=c\nis=1\n" PADDING("8"), 14, "",
                  "an optional array,", PADDED);
    expect_answer(HEAD PADDED LAMP PAYLOAD ARRAY("a", "8", "2") "field=padding\nbytes=8\nif=c\nis=1\n", 14, "", "an optional padding,", PADDED);
    expect_answer(HEAD PADDED LAMP "field=array\nid=a\nwidth=8\ntype=-\nmod=-\ncount=2\nif=c\nis=1\n" PADDING("8"), 13, "",
                  "an optional array alone,", PADDED);

    /* 2 before 16 and 17, and these as ever */
    expect_answer(HEAD "trailing=Padded\n" LAMP SCALAR("int", "8"), 2, "", "another word", "and a keyword");
    expect_answer(HEAD PADDED LAMP SCALAR("int", "8"), 16, "", "a keyword,", PADDED);
    expect_answer(HEAD PADDED LAMP "bits=16\n" PAYLOAD ARRAY("a", "8", "2") PADDING("8"), 17, "", "a wrong size,", PADDED);
    expect_answer(HEAD PADDED LAMP "bits=unknown\n" ARRAY("a", "8", "-") PADDING("8"), 17, "", "a wrong size of an array with no size,", PADDED);
}

/* ---- the numbers of tested enums: the head line `raw` of document 02 */

#define FULL_HEAD "endian=big\ntarget=Lamp\narrays=full\n"
#define RAW_PLAIN "raw=plain\n"
#define NUMBERED "raw=numbered\n"
#define ENUM(name, width, open, complete) "decl=enum\nname=" name "\nwidth=" width "\nopen=" open "\ncomplete=" complete "\n"
#define MODE ENUM("Mode", "8", "0", "0")
#define ENUMS MODE ENUM("Half", "4", "0", "0") ENUM("Any", "8", "1", "0") ENUM("Done", "8", "0", "1")
#define FLAG(id) "field=flag\nid=" id "\nif=-\n" RESERVED("7")
#define OCTET "span.read_le<uint8_t, 1>()"
#define CHUNK "uint8_t chunk0 = " OCTET ";\n"
#define TESTED(id, type, digits, bits) \
    "auto raw_value" digits " = " bits ";\nif (!IsValid" type "(raw_value" digits ")) {\n   return false;\n}\n" id "_ = " type "(raw_value" digits ");\n"

/* Lines with and without the digits: n is WITH or WITHOUT. */
#define WITHOUT(digits) ""
#define WITH(digits) digits
#define TWO(n) CHECK("2") TESTED("a", "Mode", n("0"), OCTET) TESTED("b", "Mode", n("1"), OCTET)
#define THREE(n) \
    CHECK("2") CHUNK TESTED("a", "Half", n("0"), "(chunk0 >> 0) & 0xf") TESTED("b", "Half", n("1"), "(chunk0 >> 4) & 0xf") \
        TESTED("d", "Mode", n("2"), OCTET)
#define AROUND_AN_ARRAY(n) \
    CHECK("1") TESTED("a", "Mode", n("0"), OCTET) CHECK("2") "x_ = span.subrange(0, 2);\nspan.skip(2);\n" CHECK("1") \
        TESTED("b", "Mode", n("1"), OCTET)
#define AROUND_AN_OPTIONAL(n) \
    CHECK("2") "uint8_t c = " OCTET ";\n" TESTED("a", "Mode", n("0"), OCTET) \
        "if (c == 1) {\n    if (span.size() < 1) {\n        return false;\n    }\n    auto raw_value = " OCTET ";\n" \
        "    if (!IsValidMode(raw_value)) {\n       return false;\n    }\n    p_ = Mode(raw_value);\n}\n" CHECK("1") \
            TESTED("b", "Mode", n("1"), OCTET)
#define AROUND_OTHERS(n) \
    CHECK("5") TESTED("a", "Mode", n("0"), OCTET) "o_ = Any(" OCTET ");\ng_ = Done(" OCTET ");\nif (Mode(" OCTET \
        ") != Mode::OFF) {\n    return false;\n}\n" TESTED("b", "Mode", n("1"), OCTET)
#define BEHIND_FLAGS(n) \
    CHECK("3") CHUNK "uint8_t raw_value = (chunk0 >> 0) & 0x1;\nuint8_t chunk1 = " OCTET ";\nuint8_t raw_value0 = (chunk1 >> 0) & 0x1;\n" \
        TESTED("raw_value1", "Mode", n("0"), OCTET)

/* Fields, and their lines with the line absent or plain, and numbered. */
static const struct {
    const char *label, *fields, *plain, *numbered;
} raws[] = {
    {"one tested enum", TYPEDEF("a", "Mode"), CHECK("1") TESTED("a", "Mode", "", OCTET), CHECK("1") TESTED("a", "Mode", "0", OCTET)},
    {"two", TYPEDEF("a", "Mode") TYPEDEF("b", "Mode"), TWO(WITHOUT), TWO(WITH)},
    {"two in one chunk, and a third", TYPEDEF("a", "Half") TYPEDEF("b", "Half") TYPEDEF("d", "Mode"), THREE(WITHOUT), THREE(WITH)},
    {"an array between", TYPEDEF("a", "Mode") ARRAY_OF("x", "Mode", "2") TYPEDEF("b", "Mode"), AROUND_AN_ARRAY(WITHOUT), AROUND_AN_ARRAY(WITH)},
    {"an optional enum between",
     SCALAR("c", "8") TYPEDEF("a", "Mode") "field=typedef\nid=p\ntype=Mode\nif=c\nis=1\n" TYPEDEF("b", "Mode"), AROUND_AN_OPTIONAL(WITHOUT),
     AROUND_AN_OPTIONAL(WITH)},
    {"open, complete and fixed enums between",
     TYPEDEF("a", "Mode") TYPEDEF("o", "Any") TYPEDEF("g", "Done") "field=fixedenum\ntype=Mode\ntag=OFF\nif=-\n" TYPEDEF("b", "Mode"),
     AROUND_OTHERS(WITHOUT), AROUND_OTHERS(WITH)},
    {"names like the variables", FLAG("raw_value") FLAG("raw_value0") TYPEDEF("raw_value1", "Mode"), BEHIND_FLAGS(WITHOUT), BEHIND_FLAGS(WITH)},
    {"a chunk that is dropped", TYPEDEF("a", "Half"), "", ""},
    {"no enum", SCALAR("x", "8"), CHECK("1") "x_ = " OCTET ";\n", CHECK("1") "x_ = " OCTET ";\n"},
};

static const char *const plain_heads[] = {"", RAW_PLAIN, PLAIN, PLAIN RAW_PLAIN, PADDED RAW_PLAIN};
static const char *const numbered_heads[] = {NUMBERED, PLAIN NUMBERED, PADDED NUMBERED};
#define LENGTH(array) (sizeof(array) / sizeof(array)[0])

static void test_raw_lines(const char *label, const char *const heads[], size_t n, const char *fields, const char *text)
{
    for (size_t i = 0; i < n; i++) {
        char record[1024];
        snprintf(record, sizeof record, HEAD "%s" ENUMS LAMP "%s", heads[i], fields);
        expect_answer(record, 0, text, label, *heads[i] == 0 ? "no line" : heads[i]);
    }
}

/* 64 tested enums, numbered from 0 to 63. */
static void test_many_raws(const char *head, int has_numbers)
{
    static char record[8192], text[16384];
    char *at = record + sprintf(record, HEAD "%s" MODE LAMP, head), *end = text + sprintf(text, CHECK("64"));
    for (int i = 0; i < 64; i++) {
        char digits[3] = "";
        if (has_numbers)
            snprintf(digits, sizeof digits, "%d", i);
        at += sprintf(at, TYPEDEF("a", "Mode"));
        end += sprintf(end, TESTED("a", "Mode", "%s", OCTET), digits, digits, digits);
    }
    expect_answer(record, 0, text, "64 tested enums", head);
}

/* A record with the line, cut behind each byte of it and of what follows; and with each of its bytes damaged. */
static void test_cut_raw(void)
{
    static const char whole[] = HEAD PADDED NUMBERED MODE LAMP TYPEDEF("a", "Mode");
    static const char head[] = HEAD PADDED, no_target[] = HEAD PADDED NUMBERED MODE, no_field[] = HEAD PADDED NUMBERED MODE LAMP;
    for (size_t length = strlen(head); length < strlen(whole); length++) {
        uint32_t answer = length == strlen(no_target) ? 9 : length == strlen(no_field) ? 0 : 2;
        expect(gives_in_every_room((const uint8_t *)whole, length, answer, (const uint8_t *)"", 0), "raw=numbered, cut behind %zu bytes", length);
    }
    for (size_t i = strlen(head); i < strlen(HEAD PADDED NUMBERED); i++) {
        uint8_t record[sizeof whole];
        memcpy(record, whole, sizeof whole);
        record[i] = 255;
        expect(gives(record, strlen(whole), RUPHWENQO_LINES_ROOM, 2, record, 0), "raw=numbered with byte %zu damaged", i);
    }
}

static const char *const no_raw[] = {
    "raw=\n", "raw=-\n", "raw=Plain\n", "raw=Numbered\n", "raw=NUMBERED\n", "raw= numbered\n", "raw=numbered \n", "raw=numbered\r\n", "raw=numbere\n",
    "raw=numberedd\n", "raw=plain0\n", "raw=0\n", "raw=plainnumbered\n", "raw=padded\n", "Raw=numbered\n", "ra=numbered\n", "raws=numbered\n",
    " raw=numbered\n", "raw =numbered\n", "raw==numbered\n", "raw:numbered\n", "raw\n", "numbered\n", "trailing=numbered\n", "raw=numbered",
    "\n" NUMBERED, NUMBERED "\n", RAW_PLAIN RAW_PLAIN, NUMBERED NUMBERED, RAW_PLAIN NUMBERED, NUMBERED RAW_PLAIN, RAW_PLAIN PLAIN, NUMBERED PADDED,
    PADDED NUMBERED PADDED, PADDED NUMBERED NUMBERED, PADDED "raw=Numbered\n", PADDED "\n" NUMBERED, NUMBERED "arrays=lite\n",
    NUMBERED "products=numbered\n", "products=plain\n" NUMBERED,
};

static const struct {
    const char *place, *record;
} no_raw_places[] = { MISPLACED(NUMBERED, MODE) };

static void test_raws(void)
{
    for (size_t i = 0; i < LENGTH(raws); i++) {
        test_raw_lines(raws[i].label, plain_heads, LENGTH(plain_heads), raws[i].fields, raws[i].plain);
        test_raw_lines(raws[i].label, numbered_heads, LENGTH(numbered_heads), raws[i].fields, raws[i].numbered);
    }
    test_many_raws("", 0);
    test_many_raws(RAW_PLAIN, 0);
    test_many_raws(NUMBERED, 1);
    test_many_raws(PADDED NUMBERED, 1);
    test_cut_raw();
    for (size_t i = 0; i < LENGTH(no_raw); i++) {
        char record[256];
        snprintf(record, sizeof record, HEAD "%s" LAMP, no_raw[i]);
        expect_answer(record, 2, "", "a head with", no_raw[i]);
    }
    for (size_t i = 0; i < LENGTH(no_raw_places); i++)
        expect_answer(no_raw_places[i].record, 2, "", "a line `raw`", no_raw_places[i].place);
    test_long_line(RAW_PLAIN);
    test_long_line(NUMBERED);
    test_long_line(PADDED NUMBERED);

    /* full mode: an array has its own block */
#define FULL_OCTET "span.read_be<uint8_t, 1>()"
    expect_answer(FULL_HEAD NUMBERED MODE LAMP TYPEDEF("a", "Mode") ARRAY_OF("x", "Mode", "2") TYPEDEF("b", "Mode"), 0,
                  CHECK("1") TESTED("output->a", "Mode", "0", FULL_OCTET) CHECK("2") "for (size_t n = 0; n < 2; n++) {\n    auto raw_value = " FULL_OCTET
                      ";\n    if (!IsValidMode(raw_value)) {\n        return false;\n    }\n    output->x_[n] = Mode(raw_value);\n}\n" CHECK("1")
                          TESTED("output->b", "Mode", "1", FULL_OCTET),
                  "an array between, full,", NUMBERED);

    /* 2 before 16 and 17, and these as ever */
    expect_answer(HEAD "raw=Numbered\n" LAMP SCALAR("int", "8"), 2, "", "another word", "and a keyword");
    expect_answer(HEAD NUMBERED LAMP SCALAR("int", "8"), 16, "", "a keyword,", NUMBERED);
    expect_answer(HEAD NUMBERED MODE LAMP "bits=8\n" TYPEDEF("a", "Mode") TYPEDEF("b", "Mode"), 17, "", "a wrong size,", NUMBERED);
    expect_answer(HEAD NUMBERED MODE LAMP "bits=16\n" TYPEDEF("a", "Mode") TYPEDEF("b", "Mode"), 0, TWO(WITH), "a right size,", NUMBERED);
    expect_answer(HEAD NUMBERED MODE LAMP TYPEDEF("a", "Mode") SCALAR("y", "4"), 10, "", "an open chunk,", NUMBERED);
}

/* ---- checks by a division: the head line `products` of document 02 */

#define PRODUCTS_PLAIN "products=plain\n"
#define DIVIDE "products=divide\n"
#define SIZE_OF(key, width) "field=" key "\nof=a\nwidth=" width "\nif=-\n"
#define COUNT_32 SIZE_OF("count", "32")
#define ELEMENT_32 SIZE_OF("elemsize", "32")
#define TRIPLE "decl=struct\nname=Triple\nparent=-\n" SCALAR("t", "24")
#define ASK(test) "if (" test ") {\n    return false;\n}\n"

/* A check on a * b, by their product and by a division: the `by` of the lines below. */
#define MULTIPLIED(a, b) ASK("span.size() < " a " * " b)
#define DIVIDED(a, b) ASK(a " != 0 && span.size() / " a " < " b)

#define READ_32(x) x " = span.read_le<uint32_t, 4>();\n"
#define FULL_READ_32(x) "output->" x " = span.read_be<uint32_t, 4>();\n"
#define CUT(amount) "a_ = span.subrange(0, " amount ");\nspan.skip(" amount ");\n"
#define OF_BYTES(by, bytes) CHECK("4") READ_32("a_count_") by(bytes, "a_count_") CUT(bytes " * a_count_")
#define OF_TWO(by) OF_BYTES(by, "2")
#define OF_ONE(by) OF_BYTES(by, "1")
#define OF_THREE(by) OF_BYTES(by, "3")
#define NOT_ZERO ASK("a_element_size_ == 0")
#define FIVE_TIMES(by) CHECK("4") READ_32("a_element_size_") NOT_ZERO by("a_element_size_", "5") CUT("a_element_size_ * 5")
#define COUNTED(by) \
    CHECK("8") READ_32("a_element_size_") READ_32("a_count_") NOT_ZERO by("a_element_size_", "a_count_") CUT("a_element_size_ * a_count_")
#define PADDED_TWO(by) \
    CHECK("4") READ_32("a_count_") "size_t a_start_size = span.size();\n" by("2", "a_count_") CUT("2 * a_count_") \
        "if (a_start_size - span.size() < 8) {\n    if (span.size() < 8 - (a_start_size - span.size())) return false;\n" \
        "    span.skip(8 - (a_start_size - span.size()));\n}\n"
#define FULL_TWO(by) \
    CHECK("4") FULL_READ_32("a_count_") by("2", "output->a_count_") \
        "for (size_t n = 0; n < output->a_count_; n++) {\n    output->a_.push_back(span.read_be<uint16_t, 2>());\n}\n"
#define EACH(count) \
    "for (size_t n = 0; n < " count "; n++) {\n    auto element_span = span.subrange(n * output->a_element_size_, output->a_element_size_);\n" \
    "    Blob out;\n    if (!Blob::Parse(element_span, &out)) {\n        return false;\n    }\n    output->a_[n] = out;\n}\n" \
    "span.skip(output->a_element_size_ * " count ");\n"
#define FULL_FIVE_TIMES(by) CHECK("4") FULL_READ_32("a_element_size_") by("output->a_element_size_", "5") EACH("5")
#define FULL_COUNTED(by) \
    CHECK("8") FULL_READ_32("a_element_size_") FULL_READ_32("a_count_") by("output->a_element_size_", "output->a_count_") EACH("output->a_count_")
#define OF_A_NUMBER(by) CHECK("6") CUT("6")
#define OF_A_SIZE(by) CHECK("4") READ_32("a_size_") CHECK("a_size_") ASK("(a_size_ % 2) != 0") CUT("a_size_")

/* Fields behind the first three lines of a head, and their lines with the line absent or plain, and with divide. */
static const struct {
    const char *label, *head, *fields, *plain, *divide;
} products[] = {
    {"a count of 2 bytes", HEAD, COUNT_32 ARRAY("a", "16", "-"), OF_TWO(MULTIPLIED), OF_TWO(DIVIDED)},
    {"a count of 1 byte", HEAD, COUNT_32 ARRAY("a", "8", "-"), OF_ONE(MULTIPLIED), OF_ONE(DIVIDED)},
    {"a count of 3 bytes", HEAD, COUNT_32 ARRAY_OF("a", "Triple", "-"), OF_THREE(MULTIPLIED), OF_THREE(DIVIDED)},
    {"an element size, 5 times", HEAD, ELEMENT_32 ARRAY_OF("a", "Blob", "5"), FIVE_TIMES(MULTIPLIED), FIVE_TIMES(DIVIDED)},
    {"an element size and a count", HEAD, ELEMENT_32 COUNT_32 ARRAY_OF("a", "Blob", "-"), COUNTED(MULTIPLIED), COUNTED(DIVIDED)},
    {"a padded array", HEAD, COUNT_32 ARRAY("a", "16", "-") PADDING("8"), PADDED_TWO(MULTIPLIED), PADDED_TWO(DIVIDED)},
    {"a count of 2 bytes, full", FULL_HEAD, COUNT_32 ARRAY("a", "16", "-"), FULL_TWO(MULTIPLIED), FULL_TWO(DIVIDED)},
    {"an element size, 5 times, full", FULL_HEAD, ELEMENT_32 ARRAY_OF("a", "Blob", "5"), FULL_FIVE_TIMES(MULTIPLIED), FULL_FIVE_TIMES(DIVIDED)},
    {"an element size and a count, full", FULL_HEAD, ELEMENT_32 COUNT_32 ARRAY_OF("a", "Blob", "-"), FULL_COUNTED(MULTIPLIED),
     FULL_COUNTED(DIVIDED)},
    {"a fixed count of 2 bytes", HEAD, ARRAY("a", "16", "3"), OF_A_NUMBER(MULTIPLIED), OF_A_NUMBER(DIVIDED)},
    {"a byte size", HEAD, SIZE_OF("size", "32") ARRAY("a", "16", "-"), OF_A_SIZE(MULTIPLIED), OF_A_SIZE(DIVIDED)},
    {"no array", HEAD, SCALAR("x", "8"), CHECK("1") "x_ = " OCTET ";\n", CHECK("1") "x_ = " OCTET ";\n"},
};

static const char *const multiplied_heads[] = {"", PRODUCTS_PLAIN, PADDED PRODUCTS_PLAIN, NUMBERED PRODUCTS_PLAIN, PADDED NUMBERED PRODUCTS_PLAIN};
static const char *const divided_heads[] = {DIVIDE, PLAIN DIVIDE, PADDED DIVIDE, RAW_PLAIN DIVIDE, NUMBERED DIVIDE, PADDED NUMBERED DIVIDE};

static void test_product_lines(size_t i, const char *const heads[], size_t n, const char *text)
{
    for (size_t k = 0; k < n; k++) {
        char record[1024];
        snprintf(record, sizeof record, "%s%s" BLOB TRIPLE LAMP "%s", products[i].head, heads[k], products[i].fields);
        expect_answer(record, 0, text, products[i].label, *heads[k] == 0 ? "no line" : heads[k]);
    }
}

/* A record with the line, cut behind each byte of it and of what follows; and with each of its bytes damaged. */
static void test_cut_products(void)
{
    static const char whole[] = HEAD PADDED NUMBERED DIVIDE BLOB LAMP PADDING("2");
    static const char head[] = HEAD PADDED NUMBERED, no_target[] = HEAD PADDED NUMBERED DIVIDE BLOB;
    static const char no_field[] = HEAD PADDED NUMBERED DIVIDE BLOB LAMP;
    for (size_t length = strlen(head); length < strlen(whole); length++) {
        uint32_t answer = length == strlen(no_target) ? 9 : length == strlen(no_field) ? 0 : 2;
        expect(gives_in_every_room((const uint8_t *)whole, length, answer, (const uint8_t *)"", 0), "products=divide, cut behind %zu bytes", length);
    }
    for (size_t i = strlen(head); i < strlen(HEAD PADDED NUMBERED DIVIDE); i++) {
        uint8_t record[sizeof whole];
        memcpy(record, whole, sizeof whole);
        record[i] = 255;
        expect(gives(record, strlen(whole), RUPHWENQO_LINES_ROOM, 2, record, 0), "products=divide with byte %zu damaged", i);
    }
}

static const char *const no_products[] = {
    "products=\n", "products=-\n", "products=Plain\n", "products=Divide\n", "products=DIVIDE\n", "products= divide\n", "products=divide \n",
    "products=divide\r\n", "products=divid\n", "products=dividee\n", "products=divided\n", "products=plain0\n", "products=0\n",
    "products=plaindivide\n", "products=padded\n", "products=numbered\n", "Products=divide\n", "product=divide\n", "productss=divide\n",
    " products=divide\n", "products =divide\n", "products==divide\n", "products:divide\n", "products\n", "divide\n", "trailing=divide\n",
    "raw=divide\n", "products=divide", "\n" DIVIDE, DIVIDE "\n", PRODUCTS_PLAIN PRODUCTS_PLAIN, DIVIDE DIVIDE, PRODUCTS_PLAIN DIVIDE,
    DIVIDE PRODUCTS_PLAIN, PRODUCTS_PLAIN RAW_PLAIN, DIVIDE NUMBERED, PRODUCTS_PLAIN PLAIN, DIVIDE PADDED, PADDED DIVIDE NUMBERED,
    NUMBERED PADDED DIVIDE, PADDED NUMBERED DIVIDE DIVIDE, PADDED NUMBERED "products=Divide\n", NUMBERED "\n" DIVIDE, DIVIDE "arrays=lite\n",
    DIVIDE "bits=0\n",
};

static const struct {
    const char *place, *record;
} no_products_places[] = { MISPLACED(DIVIDE, BLOB) };

static void test_products(void)
{
    for (size_t i = 0; i < LENGTH(products); i++) {
        test_product_lines(i, multiplied_heads, LENGTH(multiplied_heads), products[i].plain);
        test_product_lines(i, divided_heads, LENGTH(divided_heads), products[i].divide);
    }
    test_cut_products();
    for (size_t i = 0; i < LENGTH(no_products); i++) {
        char record[256];
        snprintf(record, sizeof record, HEAD "%s" LAMP, no_products[i]);
        expect_answer(record, 2, "", "a head with", no_products[i]);
    }
    for (size_t i = 0; i < LENGTH(no_products_places); i++)
        expect_answer(no_products_places[i].record, 2, "", "a line `products`", no_products_places[i].place);
    test_long_line(PRODUCTS_PLAIN);
    test_long_line(DIVIDE);
    test_long_line(PADDED NUMBERED DIVIDE);

    /* the numbers of tested enums beside it */
    expect_answer(HEAD NUMBERED DIVIDE MODE LAMP TYPEDEF("x", "Mode") COUNT_32 ARRAY("a", "16", "-") TYPEDEF("y", "Mode"), 0,
                  CHECK("5") TESTED("x", "Mode", "0", OCTET) READ_32("a_count_") DIVIDED("2", "a_count_") CUT("2 * a_count_") CHECK("1")
                      TESTED("y", "Mode", "1", OCTET),
                  "tested enums around an array,", NUMBERED DIVIDE);

    /* 2 before 16 and 17, and these as ever */
    expect_answer(HEAD "products=Divide\n" LAMP SCALAR("int", "8"), 2, "", "another word", "and a keyword");
    expect_answer(HEAD DIVIDE LAMP SCALAR("int", "8"), 16, "", "a keyword,", DIVIDE);
    expect_answer(HEAD DIVIDE LAMP "bits=32\n" COUNT_32 ARRAY("a", "16", "-"), 17, "", "a wrong size,", DIVIDE);
    expect_answer(HEAD DIVIDE LAMP "bits=dynamic\n" COUNT_32 ARRAY("a", "16", "-"), 0, OF_TWO(DIVIDED), "a right size,", DIVIDE);
    expect_answer(HEAD DIVIDE LAMP COUNT_32 SCALAR("y", "4") ARRAY("a", "16", "-"), 10, "", "an open chunk,", DIVIDE);
    expect_answer(HEAD DIVIDE LAMP PAYLOAD COUNT_32 ARRAY("a", "16", "-"), 14, "", "behind a payload,", DIVIDE);
}

/* ---- whole files: lower_all (document 02, Card 13) */

#define TARGET(name) "// target=" name "\n"
#define PACKET(name) "decl=packet\nname=" name "\nparent=-\n"
#define STRUCT(name) "decl=struct\nname=" name "\nparent=-\n"
#define SKIP CHECK("2") "span.skip(2); // skip reserved fields\n"
#define WIDE SCALAR("x", "60") SCALAR("y", "12")   /* 12 */
#define PENDING SCALAR("x", "8") SCALAR("y", "4") /* 10 */
#define OTHER_KINDS MODE "decl=checksum\nname=Sum\nwidth=8\ndecl=custom\nname=Blob\nwidth=-\n"

static const struct {
    const char *label, *record;
    uint32_t answer;
    const char *whole;
} files[] = {
    {"a target without lines", HEAD LAMP, 0, TARGET("Lamp")},
    {"P1", HEAD LAMP SCALAR("amps", "12") RESERVED("4") PAYLOAD, 0, TARGET("Lamp") P1_RUN "payload_ = span;\nspan.clear();\n"},
    {"file order, kinds without a section", HEAD OTHER_KINDS STRUCT("S") RESERVED("16") LAMP TYPEDEF("s", "S") PACKET("Last"), 0,
     TARGET("S") SKIP TARGET("Lamp") "if (!S::Parse(span, &s_)) return false;\n" TARGET("Last")},
    {"parents and children", HEAD LAMP RESERVED("16") PAYLOAD "decl=packet\nname=Child\nparent=Lamp\n" RESERVED("16"), 0,
     TARGET("Lamp") SKIP "payload_ = span;\nspan.clear();\n" TARGET("Child") SKIP},
    {"numbers anew in each", HEAD NUMBERED MODE STRUCT("S") TYPEDEF("a", "Mode") LAMP TYPEDEF("a", "Mode"), 0,
     TARGET("S") CHECK("1") TESTED("a", "Mode", "0", OCTET) TARGET("Lamp") CHECK("1") TESTED("a", "Mode", "0", OCTET)},
    {"an empty record", "", 1, ""},
    {"9 before any target", "endian=little\ntarget=Mode\narrays=lite\n" MODE LAMP WIDE, 9, ""},
    {"16 before any target", HEAD LAMP WIDE PACKET("int"), 16, ""},
    {"17 before any target", HEAD LAMP WIDE STRUCT("S") "bits=8\n", 17, ""},
    {"the first refused target, 12", HEAD LAMP RESERVED("16") PACKET("A") WIDE PACKET("B") PENDING, 12, ""},
    {"the first refused target, 10", HEAD LAMP RESERVED("16") PACKET("B") PENDING PACKET("A") WIDE, 10, ""},
    {"a refused type", HEAD STRUCT("S") PENDING LAMP, 10, ""},
};

/* 64 optional scalars, the first with a name of n bytes, the others of 18, behind a condition's name of 4: with n = 18 8,192 bytes of lines. */
static size_t put_section(char *record, const char *start, int n)
{
    size_t length = (size_t)sprintf(record, "%s", start);
    for (int i = 0; i < 64; i++)
        length += (size_t)sprintf(record + length, "field=scalar\nid=%.*s\nwidth=8\nif=cond\nis=1\n", i == 0 ? n : 18, "a_name_of_nineteen_");
    return length;
}

static void expect_file(const char *record, size_t length, size_t room, uint32_t answer, size_t whole, const char *what)
{
    uint64_t number = lower_all((const uint8_t *)record, length, lines, room);
    expect(ruphwenqo_answer(number) == answer && ruphwenqo_length(number) == whole, "%s", what);
}

static void test_files(void)
{
    for (size_t i = 0; i < LENGTH(files); i++)
        expect(call_gives_in_every_room(lower_all, RUPHWENQO_ALL_ROOM, (const uint8_t *)files[i].record, strlen(files[i].record), files[i].answer,
                                        (const uint8_t *)files[i].whole, strlen(files[i].whole)),
               "a whole file: %s", files[i].label);

    /* 19: 64 fields of 128 bytes; a byte more; before a later target's refusal, behind the target's own and an earlier one's */
    static char record[RUPHWENQO_RECORD_MAX + 1];
    size_t length = put_section(record, HEAD LAMP, 18);
    expect_file(record, length, RUPHWENQO_ALL_ROOM, 0, 8192 + strlen(TARGET("Lamp")), "a section of 8,192 bytes");
    length = put_section(record, HEAD LAMP, 19);
    expect_file(record, length, RUPHWENQO_ALL_ROOM, 19, 0, "a section of 8,193 bytes");
    expect_file(record, length, 0, 19, 0, "a section of 8,193 bytes, in no room");
    expect(ruphwenqo_answer(lower((const uint8_t *)record, length, lines, RUPHWENQO_LINES_ROOM)) == 0, "lower has no 19");
    length += (size_t)sprintf(record + length, "%s", PACKET("B") PENDING);
    expect_file(record, length, RUPHWENQO_ALL_ROOM, 19, 0, "19 before a later target's 10");
    length = put_section(record, HEAD PACKET("B") PENDING LAMP, 19);
    expect_file(record, length, RUPHWENQO_ALL_ROOM, 10, 0, "an earlier target's 10 before 19");

    /* 15: the whole, with its target lines; a later target's refusal comes first */
    const char *two = HEAD STRUCT("S") RESERVED("16") LAMP RESERVED("16"), *refused = HEAD LAMP RESERVED("16") PACKET("B") PENDING;
    size_t whole = strlen(TARGET("S") SKIP TARGET("Lamp") SKIP);
    expect_file(two, strlen(two), whole, 0, whole, "a whole of the exact length");
    expect_file(two, strlen(two), whole - 1, 15, 0, "a whole of a byte too many");
    expect_file(refused, strlen(refused), 0, 10, 0, "10 before 15");
}

/* Single calls for all packets and structs of a record, joined behind `text`: the answer, and the length of the whole. A record that a name
 * makes too long has no single call: *asked says whether there was one for each. */
static uint32_t joined_calls(const uint8_t *record, size_t length, uint8_t *text, size_t *whole, int *asked)
{
    static const char *const starts[] = {"\ndecl=packet\nname=", "\ndecl=struct\nname="};
    static uint8_t call[RUPHWENQO_RECORD_MAX + 64];
    const uint8_t *target = (const uint8_t *)memchr(record, '\n', length) + strlen("\ntarget=");
    const uint8_t *behind = memchr(target, '\n', length - (size_t)(target - record));
    size_t front = (size_t)(target - record), rest = length - (size_t)(behind - record), start = strlen(starts[0]);
    *whole = 0;
    *asked = 1;
    for (size_t at = 0; at + start < length; at++) {
        if (memcmp(record + at, starts[0], start) != 0 && memcmp(record + at, starts[1], start) != 0)
            continue;
        const uint8_t *name = record + at + start;
        size_t size = (size_t)((const uint8_t *)memchr(name, '\n', length - at - start) - name);
        memcpy(call, record, front);
        memcpy(call + front, name, size);
        memcpy(call + front + size, behind, rest);
        if (front + size + rest > RUPHWENQO_RECORD_MAX) {
            *asked = 0;
            return 0;
        }
        *whole += (size_t)sprintf((char *)text + *whole, "// target=%.*s\n", (int)size, (const char *)name);
        uint64_t number = lower(call, front + size + rest, text + *whole, RUPHWENQO_LINES_ROOM);
        if (ruphwenqo_answer(number) != 0 || ruphwenqo_length(number) > 8192) {
            *whole = 0;
            return ruphwenqo_answer(number) != 0 ? ruphwenqo_answer(number) : 19;
        }
        *whole += ruphwenqo_length(number);
    }
    return 0;
}

/* A record through lower_all: what lower answers, where that is met before any target, else what single calls give together. */
static void test_whole(const uint8_t *record, size_t length, uint32_t answer, size_t n)
{
    static uint8_t text[RUPHWENQO_ALL_ROOM + RUPHWENQO_LINES_ROOM];
    size_t whole = 0;
    int asked = 1;
    if (answer == 0 || (answer >= 10 && answer <= 14))
        answer = joined_calls(record, length, text, &whole, &asked);
    if (asked)
        expect(call_gives_in_every_room(lower_all, RUPHWENQO_ALL_ROOM, record, length, answer, text, whole), "all targets of case %zu of the sample", n);
}

/* ---- the stored sample */

/* The number that ends at the byte `stop`; *at goes behind it. Any other text ends the test. */
static size_t number_before(const uint8_t *file, size_t size, size_t *at, char stop)
{
    size_t value = 0, first = *at;
    for (; *at < size && file[*at] >= '0' && file[*at] <= '9' && value < size; ++*at)
        value = value * 10 + (file[*at] - '0');
    if (*at == first || *at == size || file[*at] != (uint8_t)stop) {
        printf("the sample has no number at byte %zu\n", first);
        exit(2);
    }
    ++*at;
    return value;
}

static void test_sample(const uint8_t *file, size_t size)
{
    size_t n = 0;
    for (size_t at = 0; at < size; n++) {
        size_t answer = number_before(file, size, &at, ' ');
        size_t record_length = number_before(file, size, &at, ' ');
        size_t length = number_before(file, size, &at, '\n');
        if (record_length > size - at || length > size - at - record_length || length > RUPHWENQO_LINES_ROOM) {
            printf("the sample is cut short in case %zu\n", n);
            exit(2);
        }
        const uint8_t *record = file + at, *text = record + record_length;
        at += record_length + length;
        expect(gives_in_every_room(record, record_length, (uint32_t)answer, text, length), "case %zu of the sample", n);
        test_whole(record, record_length, (uint32_t)answer, n);
        if (n < MARKED)
            expect(record_length == strlen(marked[n].record) && memcmp(record, marked[n].record, record_length) == 0,
                   "case %zu of the sample is not %s", n, marked[n].label);
    }
    expect(n >= MARKED, "the sample has %zu cases only", n);
}

/* All bytes of a file, or the end of the test. */
static uint8_t *read_file(const char *name, size_t *size)
{
    FILE *file = fopen(name, "rb");
    size_t room = 1 << 20;
    uint8_t *bytes = malloc(room);
    *size = 0;
    while (file != NULL && bytes != NULL) {
        *size += fread(bytes + *size, 1, room - *size, file);
        if (*size < room)
            break;
        bytes = realloc(bytes, room *= 2);
    }
    if (file == NULL || bytes == NULL || ferror(file)) {
        perror(name);
        exit(2);
    }
    fclose(file);
    return bytes;
}

int main(int argc, char **argv)
{
    if (argc != 2) {
        fprintf(stderr, "usage: %s SAMPLE\n", argv[0]);
        return 2;
    }
    size_t size;
    uint8_t *sample = read_file(argv[1], &size);
    test_marked();
    test_cut();
    test_damaged();
    test_long();
    test_keywords();
    test_cut_stated();
    test_sizes();
    test_trailing();
    test_raws();
    test_products();
    test_files();
    test_sample(sample, size);
    free(sample);
    printf("%u passed, %u failed\n", passed, failed);
    return failed == 0 ? 0 : 1;
}
