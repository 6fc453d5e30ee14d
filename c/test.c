/*
 * Calls the proved library from C, through its header. It says which claims do not hold, then how many do.
 */
#include "brooksaddle.h"
#include "claims.h"

/* ---- a call and all that it answers */

static void expect_check(const char *of, const char *bytes, size_t length, struct brooksaddle_checked wanted)
{
    struct text text = text_of(bytes, length);
    struct brooksaddle_checked told = brooksaddle_check(bytes_of(text), length);
    claim(told.code == wanted.code && told.line == wanted.line, of, "code and line of check");
    claim(told.count == wanted.count && told.depth == wanted.depth, of, "count and depth");
    free(text.block);
}

static void expect_tidy(const char *of, const char *bytes, size_t length, size_t room, struct brooksaddle_tidied wanted,
                        const char *written)
{
    struct text text = text_of(bytes, length);
    struct lent lent = lend(room);
    struct brooksaddle_tidied told = brooksaddle_tidy(bytes_of(text), length, buffer_of(lent), room);
    claim(told.code == wanted.code && told.line == wanted.line, of, "code and line of tidy");
    claim(told.length == wanted.length, of, "length of the written form");
    claim(stays_but_for(lent, written, wanted.code == BROOKSADDLE_ACCEPTED ? wanted.length : 0), of, "buffer of tidy");
    free(text.block);
    free(lent.block);
}

static void expect_content(const char *of, const char *bytes, uint32_t number, const char *wanted)
{
    struct text text = text_of(bytes, strlen(bytes));
    struct brooksaddle_part part = brooksaddle_content(bytes_of(text), text.length, number);
    int is_in = part.start <= text.length && part.length <= text.length - part.start;
    claim(is_in && part.length == strlen(wanted), of, "length of a content");
    claim(is_in && memcmp(bytes_of(text) + part.start, wanted, part.length) == 0, of, "bytes of a content");
    claim(part.length > 0 || part.start == 0, of, "the empty part is at the start");
    free(text.block);
}

/* Old, first and second. */
struct triple {
    const char *bytes[3];
    size_t lengths[3];
};

static struct triple triple_of(const char *old, const char *first, const char *second)
{
    struct triple triple = {{old, first, second}, {strlen(old), strlen(first), strlen(second)}};
    return triple;
}

static void expect_merge(const char *of, struct triple triple, size_t table_room, size_t ledger_room,
                         struct brooksaddle_merged wanted, const char *merged, const char *ledger_lines)
{
    struct lent table = lend(table_room), ledger = lend(ledger_room);
    struct text texts[3];
    for (int at = 0; at < 3; at++) {
        texts[at] = text_of(triple.bytes[at], triple.lengths[at]);
    }
    struct brooksaddle_merged told = brooksaddle_merge(
        bytes_of(texts[0]), texts[0].length, bytes_of(texts[1]), texts[1].length, bytes_of(texts[2]), texts[2].length,
        buffer_of(table), table_room, buffer_of(ledger), ledger_room);
    int is_written = wanted.code == BROOKSADDLE_ACCEPTED;
    claim(told.code == wanted.code, of, "code of merge");
    claim(told.table == wanted.table && told.place == wanted.place, of, "table and place");
    claim(told.table_length == wanted.table_length, of, "length of the table");
    claim(told.ledger_length == wanted.ledger_length, of, "length of the ledger");
    claim(stays_but_for(table, merged, is_written ? wanted.table_length : 0), of, "buffer of the table");
    claim(stays_but_for(ledger, ledger_lines, is_written ? wanted.ledger_length : 0), of, "buffer of the ledger");
    for (int at = 0; at < 3; at++) {
        claim(memcmp(bytes_of(texts[at]), triple.bytes[at], triple.lengths[at]) == 0, of, "a text is only read");
        free(texts[at].block);
    }
    free(table.block);
    free(ledger.block);
}

static void expect_refused(const char *of, struct triple triple, uint32_t code, uint32_t table, uint32_t place)
{
    struct brooksaddle_merged wanted = {code, table, place, 0, 0};
    expect_merge(of, triple, 300, 100, wanted, "", "");
}

/* ---- document 01's demonstration */

#define AIRPORT "1\t0\tairport\tid=XQAA\n"
#define TARNO "2\t1\thold\tfix=TARNO\tturn=L\n"
#define BELIN "4\t1\thold\tfix=BELIN\tturn=R\n"
#define NOTE_OLD "3\t1\tnote\ttext=old\n"
#define NOTE_NEW "3\t1\tnote\ttext=new\n"

static const char OLD[] = AIRPORT TARNO NOTE_OLD;
static const char MERGED[] = AIRPORT TARNO BELIN NOTE_NEW;
static const char LEDGER[] = "1\t0\t15\n2\t0\t21\n4\t2\t21\n3\t1\t13\ntotal\t4\t70\n";

static struct triple demonstration(void) { return triple_of(OLD, AIRPORT TARNO NOTE_NEW, AIRPORT TARNO BELIN NOTE_OLD); }

static void merges_the_demonstration(void)
{
    struct brooksaddle_merged wanted = {BROOKSADDLE_ACCEPTED, BROOKSADDLE_NO_TABLE, 0, 90, 39};
    claim(strlen(MERGED) == 90 && strlen(LEDGER) == 39, "demonstration", "its own lengths");
    expect_merge("room to spare", demonstration(), BROOKSADDLE_MOST_BYTES, BROOKSADDLE_MOST_LEDGER_BYTES, wanted, MERGED, LEDGER);
    expect_merge("room for one byte more", demonstration(), 91, 40, wanted, MERGED, LEDGER);
    expect_merge("exactly enough room", demonstration(), 90, 39, wanted, MERGED, LEDGER);
}

static void tells_lack_of_room(void)
{
    struct brooksaddle_merged no_table = {BROOKSADDLE_TABLE_TOO_SHORT, BROOKSADDLE_NO_TABLE, 0, 90, 39};
    struct brooksaddle_merged no_ledger = {BROOKSADDLE_LEDGER_TOO_SHORT, BROOKSADDLE_NO_TABLE, 0, 90, 39};
    expect_merge("no room for the table", demonstration(), 0, 39, no_table, "", "");
    expect_merge("table a byte short", demonstration(), 89, 39, no_table, "", "");
    expect_merge("no room for the ledger", demonstration(), 90, 0, no_ledger, "", "");
    expect_merge("ledger a byte short", demonstration(), 90, 38, no_ledger, "", "");
    expect_merge("both a byte short", demonstration(), 89, 38, no_table, "", "");
    expect_merge("no room at all", demonstration(), 0, 0, no_table, "", "");
}

static void reads_the_merged_table(void)
{
    struct brooksaddle_checked checked = {BROOKSADDLE_ACCEPTED, 0, 4, 2};
    struct brooksaddle_tidied tidied = {BROOKSADDLE_ACCEPTED, 0, 90}, too_short = {BROOKSADDLE_TABLE_TOO_SHORT, 0, 90};
    expect_check("merged table", MERGED, 90, checked);
    expect_tidy("merged table", MERGED, 90, 90, tidied, MERGED);
    expect_tidy("merged table", MERGED, 90, 200, tidied, MERGED);
    expect_tidy("merged table", MERGED, 90, 89, too_short, "");
    expect_content("record 1", MERGED, 1, "airport\tid=XQAA");
    expect_content("record 3", MERGED, 3, "note\ttext=new");
    expect_content("record 4", MERGED, 4, "hold\tfix=BELIN\tturn=R");
    expect_content("record 5 is absent", MERGED, 5, "");
    expect_content("no record is 0", MERGED, 0, "");
    expect_content("no record is 65,537", MERGED, 65537, "");
}

static void tidies(void)
{
    struct brooksaddle_tidied wanted = {BROOKSADDLE_ACCEPTED, 0, 28};
    const char *text = "1\t0\troute\n2\t0\tnote\n3\t1\thold\n";
    expect_tidy("lines in another order", text, 28, 28, wanted, "1\t0\troute\n3\t1\thold\n2\t0\tnote\n");
}

/* ---- tables and merges that are refused */

#define GOOD "1\t0\tx\n"

static void refuses_tables(void)
{
    static const struct {
        const char *text;
        uint32_t code;
    } on_line_2[] = {
        {GOOD "2\t0\tx", BROOKSADDLE_UNENDED},          {GOOD "2\t0\tx\r\n", BROOKSADDLE_BYTE_NOT_ALLOWED},
        {GOOD "2\t0\n", BROOKSADDLE_FEW_TABS},          {GOOD "65536\t0\tx\n", BROOKSADDLE_BAD_NUMBER},
        {GOOD "2\t00\tx\n", BROOKSADDLE_BAD_PARENT},    {GOOD "2\t0\tx\t\n", BROOKSADDLE_BAD_CONTENT},
        {GOOD "1\t0\tx\n", BROOKSADDLE_NUMBER_TWICE},   {GOOD "2\t7\tx\n", BROOKSADDLE_PARENT_MISSING},
    };
    for (size_t at = 0; at < sizeof on_line_2 / sizeof on_line_2[0]; at++) {
        const char *text = on_line_2[at].text;
        uint32_t code = on_line_2[at].code;
        struct brooksaddle_checked checked = {code, 2, 0, 0};
        struct brooksaddle_tidied tidied = {code, 2, 0};
        expect_check("refused table", text, strlen(text), checked);
        expect_tidy("refused table", text, strlen(text), 40, tidied, "");
        expect_content("refused table", text, 1, "");
        expect_refused("refused old", triple_of(text, GOOD, GOOD), code, BROOKSADDLE_OLD, 2);
        expect_refused("refused first", triple_of(GOOD, text, GOOD), code, BROOKSADDLE_FIRST, 2);
        expect_refused("refused second", triple_of(GOOD, GOOD, text), code, BROOKSADDLE_SECOND, 2);
        expect_refused("all refused", triple_of(text, text, text), code, BROOKSADDLE_OLD, 2);
    }
}

#define UNDER_1(number) #number "\t1\tx\n"

static void refuses_merges(void)
{
    struct triple d = triple_of(GOOD UNDER_1(2), GOOD UNDER_1(2) UNDER_1(5), GOOD UNDER_1(2) UNDER_1(6));
    struct triple e = triple_of(GOOD UNDER_1(2) UNDER_1(3) UNDER_1(4), GOOD UNDER_1(2) UNDER_1(4), GOOD UNDER_1(2) UNDER_1(3));
    struct triple g = triple_of(GOOD "2\t0\tx\n", GOOD UNDER_1(2), "2\t0\tx\n1\t2\tx\n");
    struct triple i = triple_of(GOOD UNDER_1(2), GOOD, GOOD "2\t1\tnew\n");
    struct triple contents = triple_of(GOOD, "1\t0\ty\n", "1\t0\tz\n");
    expect_refused("two contents", contents, BROOKSADDLE_CONTENT_CLASH, 0, 1);
    expect_refused("case G", g, BROOKSADDLE_PARENT_CLASH, 0, 1);
    expect_refused("case D", d, BROOKSADDLE_NEIGHBOUR_CLASH, 0, 1);
    expect_refused("case E", e, BROOKSADDLE_BROKEN_LIST, 0, 1);
    expect_refused("case I", i, BROOKSADDLE_LOST_EDIT, 0, 2);
}

/* ---- limits */

static void takes_empty_texts(void)
{
    struct brooksaddle_checked checked = {BROOKSADDLE_ACCEPTED, 0, 0, 0};
    struct brooksaddle_tidied tidied = {BROOKSADDLE_ACCEPTED, 0, 0};
    struct brooksaddle_merged merged = {BROOKSADDLE_ACCEPTED, 0, 0, 0, 10}, too_short = {BROOKSADDLE_LEDGER_TOO_SHORT, 0, 0, 0, 10};
    expect_check("empty text", "", 0, checked);
    expect_tidy("empty text", "", 0, 0, tidied, "");
    expect_tidy("empty text", "", 0, 9, tidied, "");
    expect_content("empty text", "", 1, "");
    expect_merge("empty texts", triple_of("", "", ""), 0, 10, merged, "", "total\t0\t0\n");
    expect_merge("empty texts", triple_of("", "", ""), 0, 9, too_short, "", "");
}

static void takes_the_greatest_number(void)
{
    const char *text = "65535\t0\tx\n7\t65535\ty\n";
    const char *old = "65535\t0\tx\n";
    struct brooksaddle_checked checked = {BROOKSADDLE_ACCEPTED, 0, 2, 2};
    struct brooksaddle_merged merged = {BROOKSADDLE_ACCEPTED, 0, 0, 20, 26};
    claim(BROOKSADDLE_GREATEST_NUMBER == 65535, "number 65,535", "its constant");
    expect_check("number 65,535", text, 20, checked);
    expect_content("number 65,535", text, BROOKSADDLE_GREATEST_NUMBER, "x");
    expect_merge("number 65,535", triple_of(old, text, old), 20, 26, merged, text, "65535\t0\t1\n7\t1\t1\ntotal\t2\t2\n");
}

/* Records of the top from number 1 on, so many bytes in all. */
static void fill_table(char *text, size_t bytes)
{
    for (unsigned number = 1; bytes > 0; number++) {
        size_t head = (size_t)sprintf(text, "%u\t0\t", number);
        size_t content = bytes - head - 1 < BROOKSADDLE_LONGEST_CONTENT ? bytes - head - 1 : BROOKSADDLE_LONGEST_CONTENT;
        size_t rest = bytes - head - content - 1;
        /* What is left must be enough for a line. */
        content -= rest > 0 && rest < 20 ? 20 : 0;
        memset(text + head, 'x', content);
        text[head + content] = '\n';
        text += head + content + 1;
        bytes -= head + content + 1;
    }
}

static void takes_32768_bytes(void)
{
    static char text[BROOKSADDLE_MOST_BYTES + 2];
    struct brooksaddle_tidied tidied = {BROOKSADDLE_ACCEPTED, 0, BROOKSADDLE_MOST_BYTES};
    struct brooksaddle_tidied refused = {BROOKSADDLE_TEXT_TOO_LONG, 0, 0};
    struct brooksaddle_checked checked = {BROOKSADDLE_TEXT_TOO_LONG, 0, 0, 0};
    fill_table(text, BROOKSADDLE_MOST_BYTES);
    expect_tidy("32,768 bytes", text, BROOKSADDLE_MOST_BYTES, BROOKSADDLE_MOST_BYTES, tidied, text);
    fill_table(text, BROOKSADDLE_MOST_BYTES + 1);
    expect_check("32,769 bytes", text, BROOKSADDLE_MOST_BYTES + 1, checked);
    expect_tidy("32,769 bytes", text, BROOKSADDLE_MOST_BYTES + 1, BROOKSADDLE_MOST_BYTES + 1, refused, "");
    expect_content("32,769 bytes", text, 1, "");
    expect_refused("32,769 bytes of old", triple_of(text, "", ""), BROOKSADDLE_TEXT_TOO_LONG, BROOKSADDLE_OLD, 0);
    expect_refused("32,769 bytes of second", triple_of("", "", text), BROOKSADDLE_TEXT_TOO_LONG, BROOKSADDLE_SECOND, 0);
}

/* Two records of the top, and so many under one of them. */
static void fill_children(char *text, unsigned parent, unsigned count)
{
    text += sprintf(text, "1\t0\tx\n2\t0\tx\n");
    for (unsigned child = 0; child < count; child++) {
        text += sprintf(text, "%u\t%u\tx\n", 1000 * parent + child, parent);
    }
}

static void takes_512_lines(void)
{
    static char first[BROOKSADDLE_MOST_BYTES], second[BROOKSADDLE_MOST_BYTES];
    struct brooksaddle_checked full = {BROOKSADDLE_ACCEPTED, 0, BROOKSADDLE_MOST_LINES, 2};
    struct brooksaddle_checked refused = {BROOKSADDLE_TOO_MANY_LINES, BROOKSADDLE_MOST_LINES + 1, 0, 0};
    fill_children(first, 1, 510);
    expect_check("512 lines", first, strlen(first), full);
    fill_children(second, 2, 511);
    expect_check("513 lines", second, strlen(second), refused);
    fill_children(second, 2, 1);
    expect_refused("513 merged records", triple_of("1\t0\tx\n2\t0\tx\n", first, second), BROOKSADDLE_MERGED_TOO_LARGE, 0, 0);
}

int main(void)
{
    merges_the_demonstration();
    tells_lack_of_room();
    reads_the_merged_table();
    tidies();
    refuses_tables();
    refuses_merges();
    takes_empty_texts();
    takes_the_greatest_number();
    takes_32768_bytes();
    takes_512_lines();
    printf("%u passed, %u failed\n", passed, failed);
    return failed == 0 ? EXIT_SUCCESS : EXIT_FAILURE;
}
