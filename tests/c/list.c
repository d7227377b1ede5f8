/* Prints the connection list of a sheet on standard input, as conlist does with the same argument; then reads the sheet into tables, and sees that the calls over
   tables agree with one another, under the usual limit: the listings each by itself and both in one call, by the ported entry, and where no names differ in letter
   case alone by the second one too; diagnostics as numbers and as records; and that each leaves the link table, or refuses where there is no room for it, or where
   the limit is too large. Then it gives two components modes, and asks for their selections; and changes the array indices: any bits list the same, and numbers
   that no index has are refused. Last it lists two small sheets of its own: one of which the two entries give different lists, and one of boxes in one another,
   of which each limit gives as much as it allows. */
#include "conlist.h"
#include <ctype.h>
#include <stdarg.h>
#include <stdio.h>
#include <stdlib.h>
#include <string.h>

#define COUNT(slice) (sizeof(slice) / sizeof(slice)[0])
#define WHOLE(slice) slice, COUNT(slice)

/* the letters in their order, each with the numbers of a row and the rows that are lent */
#define LETTERS(EACH)                                                                                                  \
    EACH(n, 2, 256)                                                                                                    \
    EACH(c, 9, 96)                                                                                                     \
    EACH(f, 3, 96)                                                                                                     \
    EACH(x, 7, 96)                                                                                                     \
    EACH(p, 1, 96)                                                                                                     \
    EACH(i, 2, 96)                                                                                                     \
    EACH(t, 3, 96)                                                                                                     \
    EACH(q, 4, 96)                                                                                                     \
    EACH(u, 9, 96)                                                                                                     \
    EACH(e, 8, 96)                                                                                                     \
    EACH(r, 5, 96)                                                                                                     \
    EACH(m, 3, 96)

static uint8_t sheet[16385], text[8192], bytes[16384];
#define SLICE(letter, numbers, rows) static uint32_t letter[(numbers) * (rows)];
LETTERS(SLICE)
#define WHOLE_TABLE(letter, numbers, rows) WHOLE(letter),

/* what `conlist_read_sheet` tells of the tables, and of each table as much as was read */
#define ROWS_OF(letter, numbers, rows) rows_of_##letter,
enum { refused, bytes_of_names, LETTERS(ROWS_OF) numbers_told };
static uint64_t read[numbers_told];
#define READ_TABLE(letter, numbers, rows) , letter, read[rows_of_##letter] * (numbers)
#define TABLES bytes, read[bytes_of_names] LETTERS(READ_TABLE)

#define NUMBERS_OF(letter, numbers, rows) numbers_of_##letter = numbers,
enum { LETTERS(NUMBERS_OF) };

/* the three numbers of an array index in a row of C: whether there is one, its high 32 bits and its low 32 bits */
enum { index_present = 2, index_high, index_low };

/* the parent and the place in a row of C, and a number that is missing */
enum { parent = 1, place = 8 };
#define MISSING UINT32_MAX

/* the numbers of a row of links: the first child and the next sibling */
enum { first_child, next_sibling, numbers_of_links };

/* the numbers of a row of a listing, which has places for 129 connections of its path */
enum { numbers_of_row = 8 + 129 };

/* the limit on steps that is the usual one, and the largest that is not refused */
enum { usual_limit = 20, largest_limit = 64 };

/* the outputs of a listing by itself, and of both in one call */
static uint32_t rows[64 * numbers_of_row], diagnostics[64 * 4], features[64 * 14];
static uint32_t group_rows[64 * numbers_of_row], group_diagnostics[64 * 4];
static uint32_t both_rows[64 * numbers_of_row], both_diagnostics[64 * 4];
static uint32_t both_group_rows[64 * numbers_of_row], both_group_diagnostics[64 * 4];
static uint32_t links[96 * numbers_of_links];
static uint8_t names[4096], both_names[4096];
static struct conlist_diagnostic records[64], group_records[64];

/* the entries for both listings: the ported one, and the second, which ignores letter case */
enum { ported, ignoring_case, number_of_entries };
static __typeof__(conlist_list_connections) *const entries[] = {
    conlist_list_connections,
    conlist_list_connections_ignoring_case,
};
static __typeof__(conlist_list_connections_with_records) *const entries_with_records[] = {
    conlist_list_connections_with_records,
    conlist_list_connections_ignoring_case_with_records,
};

static void expect(bool holds, const char *what) {
    if (!holds) {
        fprintf(stderr, "%s\n", what);
        exit(1);
    }
}

_Static_assert(sizeof(struct conlist_diagnostic) == 16, "a record is four numbers");

/* Fills the link table with what no call leaves. */
static void spoil_links(void) { memset(links, 0xA5, sizeof links); }

/* Fills the outputs of the calls with records with what no call leaves. */
static void spoil(void) {
    spoil_links();
    memset(both_rows, 0xA5, sizeof both_rows);
    memset(both_diagnostics, 0xA5, sizeof both_diagnostics);
    memset(both_group_rows, 0xA5, sizeof both_group_rows);
    memset(both_names, 0xA5, sizeof both_names);
    memset(both_group_diagnostics, 0xA5, sizeof both_group_diagnostics);
    memset(records, 0xA5, sizeof records);
    memset(group_records, 0xA5, sizeof group_records);
}

/* So many numbers of a slice are zero. */
static void expect_zeros(const uint32_t *slice, size_t length, const char *what) {
    for (size_t at = 0; at < length; at++) expect(slice[at] == 0, what);
}

/* The names of the group listing are zero. */
static void expect_no_names(void) {
    for (size_t at = 0; at < COUNT(both_names); at++) expect(both_names[at] == 0, "refused output of names is not zero");
}

/* The place of a component among its siblings, behind all where there is none. */
static uint32_t place_of(uint32_t component) {
    return component == MISSING ? MISSING : c[component * numbers_of_c + place];
}

/* The link table, of which so many numbers were lent, holds of each component the child with the least place, and the sibling with the next place; zeros
   stand behind, and what was not lent is as it was. */
static void expect_links(size_t lent) {
    uint32_t count = (uint32_t)read[rows_of_c];
    for (uint32_t row = 0; row < count; row++) {
        uint32_t child = MISSING, sibling = MISSING;
        for (uint32_t other = 0; other < count; other++) {
            uint32_t owner = c[other * numbers_of_c + parent];
            if (owner == row && place_of(other) < place_of(child)) child = other;
            if (owner == c[row * numbers_of_c + parent] && place_of(other) > place_of(row) &&
                place_of(other) < place_of(sibling))
                sibling = other;
        }
        const uint32_t *own = &links[row * numbers_of_links];
        expect(own[first_child] == child && own[next_sibling] == sibling, "another link table");
    }
    size_t used = count * numbers_of_links;
    expect_zeros(links + used, lent - used, "unused output of links is not zero");
    for (size_t at = lent; at < COUNT(links); at++) expect(links[at] == 0xA5A5A5A5, "links that were not lent are written");
}

/* They hold what the calls over numbers left, the diagnostics as numbers and as records. */
static void expect_traced(void) {
    expect(memcmp(both_rows, rows, sizeof rows) == 0, "another traced list with records");
    expect(memcmp(both_diagnostics, diagnostics, sizeof diagnostics) == 0, "other numbers of traced diagnostics");
    expect(memcmp(records, diagnostics, sizeof diagnostics) == 0, "another traced record");
}

static void expect_group(void) {
    expect(memcmp(both_group_rows, group_rows, sizeof group_rows) == 0 && memcmp(both_names, names, sizeof names) == 0,
           "another group list with records");
    expect(memcmp(both_group_diagnostics, group_diagnostics, sizeof group_diagnostics) == 0,
           "other numbers of group diagnostics");
    expect(memcmp(group_records, group_diagnostics, sizeof group_diagnostics) == 0, "another group record");
}

/* the calls that list: the traced listing, the group listing, which takes no limit, and both by each entry */
enum { of_traced, of_group, of_both, number_of_calls = of_both + number_of_entries };

/* Lists by a call over numbers, under a limit, with so many numbers of room for links and for the rows of each listing. */
static void list_numbers(int call, uint64_t limit, size_t links_lent, size_t rows_lent, uint64_t told[5]) {
    switch (call) {
    case of_traced:
        conlist_compute_semantic_connections(TABLES, limit, links, links_lent, both_rows, rows_lent,
                                             WHOLE(both_diagnostics), told);
        break;
    case of_group:
        conlist_expand_feature_group_connections(TABLES, links, links_lent, both_group_rows, rows_lent,
                                                 WHOLE(both_names), WHOLE(both_group_diagnostics), told);
        break;
    default:
        entries[call - of_both](TABLES, limit, links, links_lent, both_rows, rows_lent, WHOLE(both_diagnostics),
                                both_group_rows, rows_lent, WHOLE(both_names), WHOLE(both_group_diagnostics), told);
    }
}

/* The same with records. */
static void list_records(int call, uint64_t limit, size_t links_lent, size_t rows_lent, uint64_t told[5]) {
    switch (call) {
    case of_traced:
        conlist_compute_semantic_connections_with_records(TABLES, limit, links, links_lent, both_rows, rows_lent,
                                                          WHOLE(both_diagnostics), WHOLE(records), told);
        break;
    case of_group:
        conlist_expand_feature_group_connections_with_records(TABLES, links, links_lent, both_group_rows, rows_lent,
                                                              WHOLE(both_names), WHOLE(both_group_diagnostics),
                                                              WHOLE(group_records), told);
        break;
    default:
        entries_with_records[call - of_both](TABLES, limit, links, links_lent, both_rows, rows_lent,
                                             WHOLE(both_diagnostics), WHOLE(records), both_group_rows, rows_lent,
                                             WHOLE(both_names), WHOLE(both_group_diagnostics), WHOLE(group_records),
                                             told);
    }
}

static __typeof__(list_numbers) *const forms[] = {list_numbers, list_records};

/* A call, over numbers and with records, is refused so, and every output that it was lent is left zero. */
static void expect_refused(int call, uint64_t limit, size_t links_lent, size_t rows_lent, uint64_t refusal) {
    static const struct conlist_diagnostic none[COUNT(records)];
    for (size_t form = 0; form < COUNT(forms); form++) {
        uint64_t told[5] = {0};
        spoil();
        forms[form](call, limit, links_lent, rows_lent, told);
        expect(told[0] == refusal && told[1] == 0 && told[2] == '-', "another refusal of a listing");
        expect(told[3] == 0 && told[4] == 0, "more than a refusal of a listing is told");
        expect_zeros(links, links_lent, "refused output of links is not zero");
        if (call != of_group) {
            expect_zeros(both_rows, rows_lent, "refused output of rows is not zero");
            expect_zeros(WHOLE(both_diagnostics), "refused output of diagnostics is not zero");
            expect(form == 0 || memcmp(records, none, sizeof none) == 0, "refused records are not zero");
        }
        if (call != of_traced) {
            expect_zeros(both_group_rows, rows_lent, "refused output of group rows is not zero");
            expect_zeros(WHOLE(both_group_diagnostics), "refused output of group diagnostics is not zero");
            expect(form == 0 || memcmp(group_records, none, sizeof none) == 0, "refused group records are not zero");
            expect_no_names();
        }
    }
}

/* A link table with one number too few is refused, before rows that are too short. */
static void expect_too_few_links(void) {
    size_t length = read[rows_of_c] * numbers_of_links - 1;
    for (int call = 0; call < number_of_calls; call++) {
        expect_refused(call, usual_limit, length, COUNT(both_rows), 22);
        expect_refused(call, usual_limit, length, 0, 22);
    }
}

/* A limit that is too large is refused, before a link table with one number too few; and before tables that are refused, here those of a root with a parent. */
static void expect_too_large_limits(void) {
    static const uint64_t limits[] = {largest_limit + 1, (uint64_t)UINT32_MAX + 1 + usual_limit, UINT64_MAX};
    size_t length = read[rows_of_c] * numbers_of_links - 1;
    uint64_t checked[3];
    for (int call = 0; call < number_of_calls; call++)
        for (size_t at = 0; at < COUNT(limits) && call != of_group; at++) {
            expect_refused(call, limits[at], COUNT(links), COUNT(both_rows), 19);
            expect_refused(call, limits[at], length, 0, 19);
            c[parent] = 0;
            conlist_check_tables(TABLES, checked);
            expect(checked[0] == 7, "a root with a parent is not refused");
            expect_refused(call, limits[at], length, 0, 19);
            c[parent] = MISSING;
        }
}

/* Both listings by an entry give what the listings give each by itself, over numbers and with records. */
static void expect_both(int entry, const uint64_t traced[3], const uint64_t grouped[3]) {
    uint64_t both[5], recorded[5];
    spoil_links();
    list_numbers(of_both + entry, usual_limit, COUNT(links), COUNT(both_rows), both);
    expect_links(COUNT(links));
    expect(both[0] == 0, "both listings are refused");
    expect(both[1] == traced[1] && both[2] == traced[2] && both[3] == grouped[1] && both[4] == grouped[2], "other counts");
    expect(memcmp(both_rows, rows, sizeof rows) == 0 && memcmp(both_diagnostics, diagnostics, sizeof diagnostics) == 0,
           "another traced list");
    expect(memcmp(both_group_rows, group_rows, sizeof group_rows) == 0 && memcmp(both_names, names, sizeof names) == 0 &&
               memcmp(both_group_diagnostics, group_diagnostics, sizeof group_diagnostics) == 0,
           "another group list");

    spoil();
    list_records(of_both + entry, usual_limit, COUNT(links), COUNT(both_rows), recorded);
    expect(memcmp(recorded, both, sizeof both) == 0, "other counts with records");
    expect_links(COUNT(links));
    expect_traced();
    expect_group();
}

/* Whether two names are equal but for letter case, and differ. */
static bool differ_in_case(const uint32_t *one, const uint32_t *other) {
    if (one[1] != other[1]) return false;
    for (uint32_t at = 0; at < one[1]; at++)
        if (tolower(bytes[one[0] + at]) != tolower(bytes[other[0] + at])) return false;
    return memcmp(bytes + one[0], bytes + other[0], one[1]) != 0;
}

/* Whether all names that differ also differ with letter case ignored: then both entries have one list. */
static bool names_apart(void) {
    for (uint64_t one = 0; one < read[rows_of_n]; one++)
        for (uint64_t other = 0; other < one; other++)
            if (differ_in_case(&n[one * numbers_of_n], &n[other * numbers_of_n])) return false;
    return true;
}

/* The bytes of a joined name: those of these two names, with an underscore between them. */
static size_t joined(uint32_t first, uint32_t second, uint8_t *name) {
    const uint32_t parts[] = {first, second};
    size_t length = 0;
    for (size_t part = 0; part < COUNT(parts); part++) {
        const uint32_t *row = &n[parts[part] * numbers_of_n];
        if (part > 0) name[length++] = '_';
        memcpy(name + length, bytes + row[0], row[1]);
        length += row[1];
    }
    return length;
}

/* The selection with this number is refused so in outputs of so many rows and bytes, which are left zero. */
static void expect_no_selection(uint64_t number, size_t rows_length, size_t name_length, uint64_t refusal) {
    uint32_t selected[2] = {7, 7};
    uint8_t name[2 * 63 + 1];
    uint64_t told[3];
    memset(name, 0xA5, sizeof name);
    conlist_select_modes(TABLES, selected, rows_length, name, name_length, number, told);
    expect(told[0] == refusal && told[1] == 0 && told[2] == '-', "another refusal of a selection");
    for (size_t row = 0; row < rows_length; row++) expect(selected[row] == 0, "unused output of modes is not zero");
    for (size_t at = 0; at < name_length; at++) expect(name[at] == 0, "unused output of a joined name is not zero");
}

/* The root with two modes and the last component with three, in mixed order: six selections, the last one's mode changing fastest. */
static void expect_modes(void) {
    uint64_t told[3];
    uint32_t last = (uint32_t)read[rows_of_c] - 1;
    const uint32_t modes[][numbers_of_m] = {{0, last, 0}, {1, 0, 1}, {2, last, 1}, {0, 0, 0}, {1, last, 0}};
    const uint32_t selections[][2] = {{1, 0}, {1, 2}, {1, 4}, {3, 0}, {3, 2}, {3, 4}};
    expect(last > 0 && read[rows_of_n] > 2, "the sheet has too few components or names for modes");
    read[rows_of_m] = 0;
    conlist_count_selections(TABLES, told);
    expect(told[0] == 0 && told[1] == 0 && told[2] == 0, "selections without modes");
    expect_no_selection(0, 2, 127, 20);

    memcpy(m, modes, sizeof modes);
    read[rows_of_m] = COUNT(modes);
    conlist_count_selections(TABLES, told);
    expect(told[0] == 0 && told[1] == COUNT(selections) && told[2] == 0, "another number of selections");
    for (size_t number = 0; number < COUNT(selections); number++) {
        const uint32_t *due = selections[number];
        uint32_t selected[3] = {7, 7, 7};
        uint8_t name[2 * 63 + 2], expected[sizeof name] = {0};
        size_t length = joined(modes[due[0]][0], modes[due[1]][0], expected);
        memset(name, 0xA5, sizeof name);
        conlist_select_modes(TABLES, WHOLE(selected), WHOLE(name), number, told);
        expect(told[0] == 0 && told[1] == 2 && told[2] == length, "another length of a selection");
        expect(selected[0] == due[0] && selected[1] == due[1] && selected[2] == 0, "another selection");
        expect(memcmp(name, expected, sizeof name) == 0, "another joined name");
        expect_no_selection(number, 1, length, 11);
        expect_no_selection(number, 1, length - 1, 11);
        expect_no_selection(number, 2, length - 1, 14);
    }
    expect_no_selection(COUNT(selections), 2, 127, 20);
    expect_no_selection(UINT64_MAX, 0, 0, 20);

    m[1] = last + 1;
    conlist_count_selections(TABLES, told);
    expect(told[0] == 6 && told[1] == 0 && told[2] == 'M', "a mode of no component is not refused");
    read[rows_of_m] = 0;
}

/* Array indices of all bits list the same, with no more links than there are components. */
static void expect_any_index(void) {
    for (uint64_t row = 0; row < read[rows_of_c]; row++) {
        uint32_t *component = &c[row * numbers_of_c];
        if (component[index_present] == 1) component[index_high] = component[index_low] = UINT32_MAX;
    }
    uint64_t told[3];
    size_t enough = read[rows_of_c] * numbers_of_links;
    spoil_links();
    conlist_compute_semantic_connections(TABLES, usual_limit, links, enough, WHOLE(both_rows), WHOLE(both_diagnostics),
                                         told);
    expect(told[0] == 0, "array indices of all bits, or just enough links, are refused");
    expect(memcmp(both_rows, rows, sizeof rows) == 0 && memcmp(both_diagnostics, diagnostics, sizeof diagnostics) == 0,
           "another traced list with array indices of all bits");
    expect_links(enough);
}

/* The last component with these numbers in place of its array index is refused 6 at its row. */
static void expect_no_index(uint32_t present, uint32_t high, uint32_t low) {
    uint64_t last = read[rows_of_c] - 1, told[3];
    uint32_t *component = &c[last * numbers_of_c];
    component[index_present] = present;
    component[index_high] = high;
    component[index_low] = low;
    conlist_check_tables(TABLES, told);
    expect(told[0] == 6 && told[1] == last && told[2] == 'C', "numbers that no array index has are not refused");
}

/* A model in which the port of the child a is `cmd` outside and `Cmd` inside, so that only the second entry follows the chain to m; the child B is also wanted
   as `b`, which only the second entry finds; and nobody is called `none`. */
static const char letter_case[] = "N root\n"
                                  "N a\n"
                                  "N B\n"
                                  "N m\n"
                                  "N wire\n"
                                  "N cmd\n"
                                  "N Cmd\n"
                                  "N b\n"
                                  "N none\n"
                                  "C     0     -                   -     0     0     -     0\n"
                                  "C     1     0                   -     0     0     -     0\n"
                                  "C     2     0                   -     0     0     -     1\n"
                                  "C     3     1                   -     0     0     -     0\n"
                                  "X     4     0     0     1     5     2     5\n"
                                  "X     4     1     0     3     6     -     6\n"
                                  "X     4     0     0     1     5     7     5\n"
                                  "X     4     0     0     8     5     1     5\n";

/* The traced listing that each entry gives of it, and zeros behind. There is no group listing. */
struct list {
    size_t row_count, diagnostic_count;
    uint32_t rows[3][numbers_of_row], diagnostics[3][4];
};
static const struct list lists[] = {
    {1, 2, {{0, 0, 1, 2, 4, 5, 5, 1, 0}}, {{3, 2, 7, 0}, {2, 3, 8, 0}}},
    {2, 1, {{0, 0, 3, 2, 4, 6, 5, 2, 0, 1}, {2, 0, 3, 2, 4, 6, 5, 2, 2, 1}}, {{2, 3, 8, 0}}},
};
static const struct list nothing;

/* A call with so many rows and diagnostics of room told and left what the entry gives of the model; or its refusal, and zeros. */
static void expect_list(int entry, size_t rows_lent, size_t diagnostics_lent, const uint64_t told[5]) {
    const struct list *due = &lists[entry];
    uint64_t refusal = rows_lent < due->row_count ? 11 : diagnostics_lent < due->diagnostic_count ? 12 : 0;
    const uint64_t given[5] = {0, due->row_count, due->diagnostic_count}, none[5] = {refusal, 0, '-'};
    expect(memcmp(told, refusal ? none : given, sizeof given) == 0, "other counts or another refusal of names in two cases");
    if (refusal)
        expect_zeros(WHOLE(links), "refused output of links is not zero");
    else
        expect_links(COUNT(links));
    due = refusal ? &nothing : due;
    expect(memcmp(both_rows, due->rows, rows_lent * sizeof due->rows[0]) == 0, "other rows of names in two cases");
    expect(memcmp(both_diagnostics, due->diagnostics, diagnostics_lent * sizeof due->diagnostics[0]) == 0,
           "other diagnostics of names in two cases");
    expect_zeros(WHOLE(both_group_rows), "group rows where there are none");
    expect_zeros(WHOLE(both_group_diagnostics), "group diagnostics where there are none");
    expect_no_names();
}

/* Each entry lists the model by its own reading, and refuses 11 and 12 over its own list, and 22 before these. */
static void expect_letter_case(void) {
    conlist_read_sheet((const uint8_t *)letter_case, sizeof letter_case - 1, WHOLE(bytes), LETTERS(WHOLE_TABLE) read);
    expect(read[refused] == 0, "the sheet with names in two cases is refused");
    for (int entry = 0; entry < number_of_entries; entry++)
        for (size_t lent = 0; lent < 4 * 4; lent++) {
            size_t rows_lent = lent / 4, diagnostics_lent = lent % 4;
            uint64_t told[5];
            spoil();
            entries[entry](TABLES, usual_limit, WHOLE(links), both_rows, rows_lent * numbers_of_row, both_diagnostics,
                           diagnostics_lent * 4, WHOLE(both_group_rows), WHOLE(both_names),
                           WHOLE(both_group_diagnostics), told);
            expect_list(entry, rows_lent, diagnostics_lent, told);
            spoil();
            entries_with_records[entry](TABLES, usual_limit, WHOLE(links), both_rows, rows_lent * numbers_of_row,
                                        WHOLE(both_diagnostics), records, diagnostics_lent, WHOLE(both_group_rows),
                                        WHOLE(both_names), WHOLE(both_group_diagnostics), WHOLE(group_records), told);
            expect_list(entry, rows_lent, diagnostics_lent, told);
            expect(memcmp(records, both_diagnostics, diagnostics_lent * sizeof records[0]) == 0, "other records");
        }
    expect_too_few_links();
}

/* A model with boxes a, b and c in one another: a wire from the root's port to a, and one further in each box, so that the way has two steps where no limit ends it. */
static const char nested[] = "N root\n"
                             "N a\n"
                             "N b\n"
                             "N c\n"
                             "N wire\n"
                             "N f\n"
                             "C     0     -                   -     0     0     -     0\n"
                             "C     1     0                   -     0     0     -     0\n"
                             "C     2     1                   -     0     0     -     0\n"
                             "C     3     2                   -     0     0     -     0\n"
                             "X     4     0     0     -     5     1     5\n"
                             "X     4     1     0     -     5     2     5\n"
                             "X     4     2     0     -     5     3     5\n";

/* The text of a sheet under a limit, and zeros behind. */
static void expect_text(const char *of, size_t length, uint64_t limit, const char *form, ...) {
    char due[COUNT(text)] = {0};
    va_list values;
    va_start(values, form);
    size_t due_length = (size_t)vsnprintf(due, sizeof due, form, values);
    va_end(values);
    memset(text, 0xA5, sizeof text);
    size_t used = conlist_list_sheet((const uint8_t *)of, length, limit, WHOLE(text));
    expect(used == due_length && memcmp(text, due, sizeof text) == 0, "another text under a limit");
}

/* Under a limit the way has so many steps: the row that each call gives, and zeros behind; and the text. */
static void expect_steps(uint64_t limit, uint32_t steps) {
    static const char *const paths[] = {"     0", "     0     1", "     0     1     2"};
    const uint32_t row[numbers_of_row] = {0, 0, 0, steps + 1, 4, 5, 5, steps + 1, 0, steps > 0, steps > 1 ? 2 : 0};
    for (int call = 0; call < number_of_calls; call++)
        for (size_t form = 0; form < COUNT(forms); form++) {
            uint64_t told[5] = {0};
            if (call == of_group) continue;
            spoil();
            forms[form](call, limit, COUNT(links), COUNT(both_rows), told);
            expect(told[0] == 0 && told[1] == 1 && told[2] == 0 && told[3] == 0 && told[4] == 0,
                   "other counts under a limit");
            expect(memcmp(both_rows, row, sizeof row) == 0, "another row under a limit");
            expect_zeros(both_rows + numbers_of_row, COUNT(both_rows) - numbers_of_row, "more rows under a limit");
            expect_zeros(WHOLE(both_diagnostics), "a diagnostic under a limit");
            expect_links(COUNT(links));
        }
    expect_text(nested, sizeof nested - 1, limit, "S     0     0     0%6u%6u%s\n= wire\n< f\n> f\nZ     1     0\n",
                steps + 1, steps + 1, paths[steps]);
}

/* The way ends where the limit says or where there is no step, whichever is first; and a limit that is too large is refused behind the refusals of reading. */
static void expect_limits(void) {
    conlist_read_sheet((const uint8_t *)nested, sizeof nested - 1, WHOLE(bytes), LETTERS(WHOLE_TABLE) read);
    expect(read[refused] == 0, "the sheet with boxes in one another is refused");
    expect_steps(0, 0);
    expect_steps(1, 1);
    expect_steps(2, 2);
    expect_steps(3, 2);
    expect_steps(usual_limit, 2);
    expect_steps(largest_limit, 2);
    expect_too_large_limits();
    expect_text(nested, sizeof nested - 1, largest_limit + 1, "R    19     0 -\n");
    expect_text(nested, sizeof nested - 2, largest_limit + 1, "R     2    13 -\n");
    expect_text(nested, 0, usual_limit, "R     7     0 C\n");
    expect_text(nested, 0, largest_limit + 1, "R    19     0 -\n");
}

int main(int words, char **word) {
    size_t length = fread(sheet, 1, sizeof sheet, stdin);
    uint64_t limit = words > 1 ? strtoull(word[1], NULL, 10) : usual_limit;
    fwrite(text, 1, conlist_list_sheet(sheet, length, limit, WHOLE(text)), stdout);

    conlist_read_sheet(sheet, length, WHOLE(bytes), LETTERS(WHOLE_TABLE) read);
    expect(read[refused] == 0, "the sheet is refused");
    uint64_t checked[3], traced[3], grouped[3], recorded[3], expanded[3];
    conlist_check_tables(TABLES, checked);
    expect(checked[0] == 0 && checked[1] == 0 && checked[2] == 0, "the tables are refused");
    spoil_links();
    conlist_compute_semantic_connections(TABLES, usual_limit, WHOLE(links), WHOLE(rows), WHOLE(diagnostics), traced);
    expect_links(COUNT(links));
    spoil_links();
    conlist_expand_feature_group_connections(TABLES, WHOLE(links), WHOLE(group_rows), WHOLE(names),
                                             WHOLE(group_diagnostics), grouped);
    expect_links(COUNT(links));
    expect(traced[0] == 0 && grouped[0] == 0, "a listing is refused");
    expect_both(ported, traced, grouped);
    if (names_apart()) expect_both(ignoring_case, traced, grouped);

    spoil();
    conlist_compute_semantic_connections_with_records(TABLES, usual_limit, WHOLE(links), WHOLE(both_rows),
                                                      WHOLE(both_diagnostics), WHOLE(records), recorded);
    expect(memcmp(recorded, traced, sizeof traced) == 0, "other counts with traced records");
    expect_links(COUNT(links));
    expect_traced();
    spoil_links();
    conlist_expand_feature_group_connections_with_records(TABLES, WHOLE(links), WHOLE(both_group_rows),
                                                          WHOLE(both_names), WHOLE(both_group_diagnostics),
                                                          WHOLE(group_records), recorded);
    expect(memcmp(recorded, grouped, sizeof grouped) == 0, "other counts with group records");
    expect_links(COUNT(links));
    expect_group();
    expect_too_few_links();
    expect_too_large_limits();

    /* the first number of a package is its name; a group type begins with its package and its name */
    for (uint64_t row = 0; row < read[rows_of_u]; row++) {
        const uint32_t *group = &u[row * numbers_of_u];
        conlist_expand_feature_group(TABLES, WHOLE(features), p[group[0] * numbers_of_p], group[1], false, expanded);
        expect(expanded[0] == 0 && expanded[2] > 0, "a group type is not found");
        for (size_t place = expanded[1] * 14; place < COUNT(features); place++)
            expect(features[place] == 0, "unused output of features is not zero");
    }

    expect_modes();
    expect_any_index();
    expect_no_index(2, 0, 0);
    expect_no_index(UINT32_MAX, 0, 0);
    expect_no_index(0, 1, 0);
    expect_no_index(0, 0, 1);
    expect_letter_case();
    expect_limits();
    return 0;
}
