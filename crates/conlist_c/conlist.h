/* The library for C. Each slice crosses as two arguments, a pointer and a count; an answer is told in numbers.

   No pointer is null, and no slice that is written overlaps another. A slice of `uint32_t` holds whole rows, one behind the other: of the tables
   N C F X P I T Q U E R M a row has 2 9 3 7 1 2 3 4 9 8 5 3 numbers, of links 2, of a listing 137, of diagnostics 4, of an expansion 14, of a selection of
   modes 1.
   The numbers of a C row are name, parent, present, high, low, package, type, pattern and place. Present, high and low are the array index, of 64 bits:
   1, its high 32 bits and its low 32 bits, or three zeros where it is missing; with present above 1, or 0 and other bits set, a call refuses with 6. Any
   other number that is missing is 4294967295. The numbers of an M row are name, owner component and initial, 0 or 1, none of which may be missing.
   `bytes` holds the bytes of the tables' names, and `names` takes the three names of each group row, unseparated.

   `links` takes the link table, which a listing fills once the tables are checked, and by which it then goes: a row for each component, in the order of
   the rows of C, of its first child and its next sibling, in the order of their places; each is missing where there is none, and the root has no
   sibling. There have to be at least as many whole rows of it as there are components. With fewer, a call refuses with 22, behind the refusals of tables
   and before those of a list; the place of 22 is 0, and its letter `-`.

   A row of a listing is connection, kind, two components, three name fields, the length of its path and 129 places, of which so many hold the connections of
   the path and the others 0. The name fields of a traced row are numbers of N rows; those of a group row say how many bytes of `names` each name has.

   `limit` says how many steps a chain may have, that is how many levels a traced connection is followed inwards from each of its ends: 0 to 64, and usually 20, by
   which the programs list where none is named. The calls that give traced rows take it behind the tables, `conlist_list_sheet` behind the sheet; the call for
   the group listing alone takes none. A limit above 64 is refused with 19, before all refusals of tables and, where a sheet is read, behind those of reading,
   which are 1 to 5; the place of 19 is 0, and its letter `-`.

   Both listings have two entries, the ported one, which compares names as the original does, and the second, whose calls are the two that end in `ignoring_case` and `ignoring_case_with_records`.
   All other calls go by the ported one.

   Afterwards an output holds its rows from the front and zeros behind, or zeros alone where the call refuses; that of text holds the list, or the
   line of a refusal, and zeros behind. */
#ifndef CONLIST_H
#define CONLIST_H

#include <stdbool.h>
#include <stddef.h>
#include <stdint.h>

#ifdef __cplusplus
extern "C" {
#endif

/* A diagnostic: its code, its connection and two numbers. */
struct conlist_diagnostic {
    uint32_t code;
    uint32_t connection;
    uint32_t first;
    uint32_t second;
};

/* The thirteen tables, which most calls take first. */
#define CONLIST_TABLES                                                                                                 \
    const uint8_t *bytes, size_t bytes_length, const uint32_t *n, size_t n_length, const uint32_t *c, size_t c_length, \
        const uint32_t *f, size_t f_length, const uint32_t *x, size_t x_length, const uint32_t *p, size_t p_length,    \
        const uint32_t *i, size_t i_length, const uint32_t *t, size_t t_length, const uint32_t *q, size_t q_length,    \
        const uint32_t *u, size_t u_length, const uint32_t *e, size_t e_length, const uint32_t *r, size_t r_length,    \
        const uint32_t *m, size_t m_length

/* Prints as `list_sheet` does: how many bytes of text there are. */
size_t conlist_list_sheet(const uint8_t *sheet, size_t sheet_length, uint64_t limit, uint8_t *text, size_t text_length);

/* Reads as `read_sheet` does. `told` then holds 0, the bytes of names and the rows of each letter that were read, or a refusal's number, place and
   letter and zeros. */
void conlist_read_sheet(const uint8_t *sheet, size_t sheet_length, uint8_t *bytes, size_t bytes_length, uint32_t *n,
                        size_t n_length, uint32_t *c, size_t c_length, uint32_t *f, size_t f_length, uint32_t *x,
                        size_t x_length, uint32_t *p, size_t p_length, uint32_t *i, size_t i_length, uint32_t *t,
                        size_t t_length, uint32_t *q, size_t q_length, uint32_t *u, size_t u_length, uint32_t *e,
                        size_t e_length, uint32_t *r, size_t r_length, uint32_t *m, size_t m_length,
                        uint64_t told[14]);

/* Checks as `check_tables` does. `told` then holds zeros, or a refusal's number, place and letter. */
void conlist_check_tables(CONLIST_TABLES, uint64_t told[3]);

/* Expands as `expand_feature_group` does. `told` then holds 0, the features that were written and the visits that were made, or a refusal's number,
   place and letter. */
void conlist_expand_feature_group(CONLIST_TABLES, uint32_t *out, size_t out_length, uint32_t from, uint32_t type_name,
                                  bool inverse, uint64_t told[3]);

/* Lists as `compute_semantic_connections` does. `told` then holds 0, the rows and the diagnostics that were written, or a refusal's number, place and
   letter. */
void conlist_compute_semantic_connections(CONLIST_TABLES, uint64_t limit, uint32_t *links, size_t links_length,
                                          uint32_t *rows, size_t rows_length, uint32_t *diagnostics,
                                          size_t diagnostics_length, uint64_t told[3]);

/* Lists as `expand_feature_group_connections` does. `told` then holds 0, the rows and the diagnostics that were written, or a refusal's number, place
   and letter. */
void conlist_expand_feature_group_connections(CONLIST_TABLES, uint32_t *links, size_t links_length, uint32_t *rows,
                                              size_t rows_length, uint8_t *names, size_t names_length,
                                              uint32_t *diagnostics, size_t diagnostics_length, uint64_t told[3]);

/* Lists as `list_connections` does. `told` then holds 0, the traced rows and diagnostics and the group rows and diagnostics that were written, or a
   refusal's number, place and letter and two zeros. */
void conlist_list_connections(CONLIST_TABLES, uint64_t limit, uint32_t *links, size_t links_length, uint32_t *rows,
                              size_t rows_length, uint32_t *diagnostics, size_t diagnostics_length,
                              uint32_t *group_rows, size_t group_rows_length, uint8_t *names, size_t names_length,
                              uint32_t *group_diagnostics, size_t group_diagnostics_length, uint64_t told[5]);

/* Lists as `list_connections` does, from the second entry: names that differ in the case of letters A to Z alone are one where tracing compares
   features and where a child is found by its whole name. It refuses by the same rules, over its own lists. `told` is as above. Where all names
   that differ also differ in more than letter case, both entries give one list. */
void conlist_list_connections_ignoring_case(CONLIST_TABLES, uint64_t limit, uint32_t *links, size_t links_length,
                                            uint32_t *rows, size_t rows_length, uint32_t *diagnostics,
                                            size_t diagnostics_length, uint32_t *group_rows, size_t group_rows_length,
                                            uint8_t *names, size_t names_length, uint32_t *group_diagnostics,
                                            size_t group_diagnostics_length, uint64_t told[5]);

/* The same four with the diagnostics in records of the caller's, `out`. There is room for as many as there are records, and for no more than a quarter of
   the `numbers`; beyond that the call refuses with 12. The numbers hold the diagnostics too. */
void conlist_compute_semantic_connections_with_records(CONLIST_TABLES, uint64_t limit, uint32_t *links,
                                                       size_t links_length, uint32_t *rows, size_t rows_length,
                                                       uint32_t *numbers, size_t numbers_length,
                                                       struct conlist_diagnostic *out, size_t out_length,
                                                       uint64_t told[3]);

void conlist_expand_feature_group_connections_with_records(CONLIST_TABLES, uint32_t *links, size_t links_length,
                                                           uint32_t *rows, size_t rows_length, uint8_t *names,
                                                           size_t names_length, uint32_t *numbers,
                                                           size_t numbers_length, struct conlist_diagnostic *out,
                                                           size_t out_length, uint64_t told[3]);

void conlist_list_connections_with_records(CONLIST_TABLES, uint64_t limit, uint32_t *links, size_t links_length,
                                           uint32_t *rows, size_t rows_length, uint32_t *numbers,
                                           size_t numbers_length, struct conlist_diagnostic *out, size_t out_length,
                                           uint32_t *group_rows, size_t group_rows_length, uint8_t *names,
                                           size_t names_length, uint32_t *group_numbers, size_t group_numbers_length,
                                           struct conlist_diagnostic *group_out, size_t group_out_length,
                                           uint64_t told[5]);

void conlist_list_connections_ignoring_case_with_records(CONLIST_TABLES, uint64_t limit, uint32_t *links,
                                                         size_t links_length, uint32_t *rows, size_t rows_length,
                                                         uint32_t *numbers, size_t numbers_length,
                                                         struct conlist_diagnostic *out, size_t out_length,
                                                         uint32_t *group_rows, size_t group_rows_length,
                                                         uint8_t *names, size_t names_length, uint32_t *group_numbers,
                                                         size_t group_numbers_length,
                                                         struct conlist_diagnostic *group_out, size_t group_out_length,
                                                         uint64_t told[5]);

/* Counts the selections of modes as `count_selections` does. `told` then holds 0, the number of selections and 1 where the list of them was cut, at
   10,000, so that a combination of all components with modes is lacking, else 0; or a refusal's number, place and letter. */
void conlist_count_selections(CONLIST_TABLES, uint64_t told[3]);

/* Gives the selection at a number, from 0, as `select_modes` does: the M rows of the selection in `rows`, one number each, the joined name in `name`. `told` then
   holds 0, the rows and the bytes of the name that were written, or a refusal's number, place and letter: behind the refusals of tables 20 where no
   selection has the number, 11 where it has more rows than there is room for, 14 where its name has more bytes. */
void conlist_select_modes(CONLIST_TABLES, uint32_t *rows, size_t rows_length, uint8_t *name, size_t name_length,
                          uint64_t number, uint64_t told[3]);

#undef CONLIST_TABLES

#ifdef __cplusplus
}
#endif

#endif
