/* Portertrunk for C programs: is this person entitled? Bundles written and appended to, credentials as lines of text,
 * and who must hold a record.
 *
 * Ten functions, proved for every input: any bytes at all may be lent, and each call returns. Link
 * crates/capi/out/libcapi.a, which `rt lib` in crates/capi writes (x86-64, System V calling convention).
 *
 * A slice is passed as a pointer and the number of its elements. Where that number is 0 the pointer
 * may be anything. Nothing is kept after the call returns.
 *
 * Nothing is asked of what the memory holds. What a C caller must keep is what the proof's own language
 * guarantees of every slice: that many elements stand at the pointer, and may be read; the tables are
 * aligned to 4 bytes; memory that is lent for writing (sure, possible, slip of the searches and the tables;
 * bundle of write and append; records of read_lines, text of write_lines) may be written, overlaps no other memory of the
 * same call, and no other thread touches it meanwhile. So neither the list of records nor the record that is appended may
 * stand in the bundle's buffer, and a text and its records need two buffers.
 *
 * A question is three numbers: is the person d a member of the role r of the entity a?
 *
 * The result of the search and of the tables, without and with a sheet, and of the check holds five numbers:
 *
 *     bits 56 to 63  number   0, or the number of a refusal
 *     bits 40 to 55  place    0, or where the refusal was found
 *     bits 32 to 39  verdict  1 YES, 2 NO, 3 UNSURE; 0 with a refusal, and from tables and check
 *     bits 16 to 31  rounds   the number of rounds over the credentials held; 0 with a refusal, and from the check
 *     bits  0 to 15  lines    the lines of the slip written or accepted; 0 otherwise
 *
 * The result of write, append, read_lines and write_lines holds two:
 *
 *     bits 56 to 63  number   0, or the number of a refusal
 *     bits  0 to 55  length   with number 0 the length in bytes of what now stands at the front of the buffer
 *                    place    with a refusal where it was found
 *
 * so that with number 0 the result is the length. A list of records may be long, and its places with it: a place has
 * 56 bits here and not 16. One of 2^56 or more would be given modulo 2^56; no address space has such a list.
 *
 * The result of holders holds four:
 *
 *     bits 56 to 63  number   0, or the number of a refusal
 *     bits 40 to 55  place    0, or where the refusal was found
 *     bit  32        well     1 if the record is structurally well typed by the sheet, else 0
 *     bits  0 to 31  shelves  the shelves that must hold it, A is bit A - 1; 0 unless it is well typed
 *
 * The refusals. The first row that applies is the answer, and the place is the lowest that applies; 2 alone names all of its
 * places. The rows 61 to 65 are one step in that order: the place is the lowest wrong record, and of what is wrong with that
 * record the first row is the answer.
 * Search, check and append read a bundle, and give 1 to 5 and 61 to 65 for it. Write gives 1 and 3, 61 to 65 for the records
 * of its list, 12 and 13; append gives the reader's rows, then 61 to 65 for its record, 12 and 13. Read_lines gives 3, then 14,
 * 12 and 13; write_lines gives what write gives. Holders gives the reader's rows, then 15, then 7.
 *
 *      1  the bundle's length is 0, above 3,584 or no multiple of 512; write and write_lines: the list of records is not in whole twelves;
 *         append also: the length is beyond the buffer, or the record has not twelve bytes; place 0
 *      2  the check of a block differs from the one that stands in it; place: all such blocks, bit k for block k, from 0, at
 *         most 127. Place 10 = 2 + 8: blocks 1 and 3 are damaged; fetch these two again
 *      3  block 0 breaks its layout: edition, entities, names, records, marks, or a byte that should be zero; write: entities
 *         not 1 to 32, names not 1 to 32, or wrong marks; read_lines and write_lines: these two numbers; place 0
 *      4  the number of blocks does not fit the number of records; place 0
 *      5  in a record block an unused place, a byte that should be zero, its number or its count is wrong; place: the block
 *     61  a record's form, its byte 0, is not 1 to 4; place: the record, from 1, in the bundle or in the list; of an append's
 *         own record, one more than the bundle has
 *     62  an intersection (form 4) has not 2 or 3 parts in byte 3; place: the record
 *     63  an entity of a record is 0 or above the number of entities; place: the record
 *     64  a role name of a record is 0 or above the number of names; place: the record
 *     65  a byte of a record that its form does not use is not zero; place: the record
 *     15  the sheet has not 512 bytes, or its check, a code, a byte that should be zero, byte 508 or its number of names is
 *         wrong (with a sheet only: after the bundle's own refusals, before 7 and 8); place 0
 *      7  the question names an entity or a role name that the bundle does not have, or 0 (searches and check), or a record that
 *         it does not have, or 0 (holders); place 0
 *      8  a lent table has fewer than 1,024 words (search and tables), or the slip buffer fewer than 61,440 bytes (search only); place 0
 *      9  the slip's length is 0, above 61,440 or no multiple of 8 (check only); place 0
 *     10  a line of the slip is not right: its credential, a premise, or what the premises state (check only); place: the line, from 1
 *     11  every line is right, and the last states another fact than the question's (check only); place 0
 *     14  a line is not right, or its record would not be valid (read_lines only); place: the first such line among the first
 *         240, from 1
 *     12  a 241st record would be needed, or something follows line 240 (write, append, read_lines and write_lines only); place 241
 *     13  the buffer is too short for what is to be written (write, append, read_lines and write_lines only); place 0
 *
 * The twelve bytes of a record, from 0: the form, the issuer, a role name, and then by the form
 *
 *      1  an entity at 3; zero from 4 on
 *      2  an entity at 3, a role name at 4; zero from 5 on
 *      3  role names at 3 and 4; zero from 5 on
 *      4  the number of parts at 3; entities at 4, 6 and, with three parts, 8; a role name behind each; zero from 8 or 10 on
 */
#ifndef PORTERTRUNK_H
#define PORTERTRUNK_H

#include <stddef.h>
#include <stdint.h>

#ifdef __cplusplus
extern "C" {
#endif

#define PORTERTRUNK_WORDS 1024        /* words that a table needs */
#define PORTERTRUNK_SLIP_BYTES 61440  /* bytes that the slip buffer needs: 7,680 lines of 8 */
#define PORTERTRUNK_MARKS 32          /* mark bytes that a bundle is written from, one for each shelf */
#define PORTERTRUNK_RECORD_BYTES 12   /* bytes of a record */
#define PORTERTRUNK_BUNDLE_BYTES 3584 /* bytes of the longest bundle, which has 240 records */
#define PORTERTRUNK_RECORDS_BYTES 2880 /* bytes of 240 records */
#define PORTERTRUNK_TEXT_BYTES 9360   /* bytes that the lines of 240 records have at most */
#define PORTERTRUNK_SHEET_BYTES 512   /* bytes of a sheet of storage types */

/* Searches. A refused call leaves every lent word and byte as it was. Otherwise the first 1,024 words of
 * each table are written: role r of entity a is word 32 * (a - 1) + r - 1, and the member d is bit d - 1.
 * `sure` holds the members by the credentials held, `possible` those under at least one completion by
 * houses whose shelf is absent. Words from 1,024 on stay. With YES the slip stands in the first 8 * lines
 * bytes of `slip`, and the bytes past it stay; with NO and UNSURE the slip buffer is not touched. */
uint64_t portertrunk_search(const uint8_t *bundle, size_t bundle_bytes, uint8_t d, uint8_t a, uint8_t r,
                            uint32_t *sure, size_t sure_words, uint32_t *possible, size_t possible_words,
                            uint8_t *slip, size_t slip_bytes);

/* Fills the two tables, without a question: `sure` and `possible` as the search leaves them, words from 1,024 on stay. The result
 * has the number of rounds, with verdict and lines 0. A refused call (1 to 5, 61 to 65, 8) leaves every lent word as it was. */
uint64_t portertrunk_tables(const uint8_t *bundle, size_t bundle_bytes, uint32_t *sure, size_t sure_words,
                            uint32_t *possible, size_t possible_words);

/* The search of a bundle with a sheet, one block of 512 bytes with the code, 1 to 6, of each role name that the bundle has:
 * byte r - 1 is the code of name r, bytes from the number of names to 507 are zero, byte 508 is 100, byte 509 the number of
 * names, and bytes 510 and 511 are the block's check. A present shelf does not complete a role whose name has code 1 or 2:
 * with a sheet role r of entity a is open if the shelf of a is absent, or if r has code 1 or 2 and any shelf at all is
 * absent, and `possible` holds the members under at least one completion by credentials of open roles. All else is as
 * without a sheet: `sure`, the rounds, whether the verdict is YES, and the slips that are accepted. A wrong sheet is
 * refused 15. */
uint64_t portertrunk_search_with_sheet(const uint8_t *bundle, size_t bundle_bytes, const uint8_t *sheet, size_t sheet_bytes,
                                       uint8_t d, uint8_t a, uint8_t r, uint32_t *sure, size_t sure_words,
                                       uint32_t *possible, size_t possible_words, uint8_t *slip, size_t slip_bytes);

/* Fills the two tables of a bundle with a sheet, without a question: as the search with a sheet leaves them, words from 1,024
 * on stay. The result has the number of rounds, with verdict and lines 0. A refused call (1 to 5, 61 to 65, 15, 8) leaves
 * every lent word as it was. */
uint64_t portertrunk_tables_with_sheet(const uint8_t *bundle, size_t bundle_bytes, const uint8_t *sheet, size_t sheet_bytes,
                                       uint32_t *sure, size_t sure_words, uint32_t *possible, size_t possible_words);

/* Checks a slip from anyone, and writes nothing. Accepted, number 0 and the number of lines, exactly if
 * the slip shows that the person is a member by the credentials in the bundle. */
uint64_t portertrunk_check(const uint8_t *bundle, size_t bundle_bytes, uint8_t d, uint8_t a, uint8_t r,
                           const uint8_t *slip, size_t slip_bytes);

/* Writes a bundle to the front of the buffer `bundle`: so many entities (1 to 32) and names (1 to 32), the mark bytes of the
 * 32 shelves (1 present, 2 absent, 0 for a shelf above the number of entities), and the records one after the other, twelve
 * bytes each, of which there may be none. A bundle of n records has 512 bytes and 512 more for every 40 records begun. Bytes
 * past it stay. A refused call writes nothing. What is written can be read back, and is the only encoding of what was given. */
uint64_t portertrunk_write(uint8_t entities, uint8_t names, const uint8_t *marks, size_t marks_bytes,
                           const uint8_t *records, size_t records_bytes, uint8_t *bundle, size_t bundle_bytes);

/* Puts one record, of twelve bytes, last in the bundle that stands in the first `length` bytes of the buffer `bundle`. Only
 * block 0 and the record block concerned are written; where the record begins a block, its 512 bytes are written, whatever
 * stood there. Bytes past the result stay. A refused call writes nothing. The bytes are those that a write of all the records
 * would give, and every slip that was accepted before is accepted after. */
uint64_t portertrunk_append(uint8_t *bundle, size_t bundle_bytes, size_t length, const uint8_t *record, size_t record_bytes);

/* Reads a letter, credentials as lines of text over so many entities (1 to 32) and names (1 to 32), and stores their records,
 * twelve bytes each, at the front of the buffer `records`. A line is one of
 *     e2.r3 <- e3
 *     e1.r2 <- e2.r3
 *     e1.r1 <- e1.r2.r4
 *     e1.r6 <- e1.r1 & e5.r5
 *     e1.r6 <- e1.r1 & e5.r5 & e2.r2
 * ended by a newline; nothing else is taken. No text is no records. Refusal 14 has the number of the first wrong line among
 * the first 240, where a line without its newline is wrong too. Twelve bytes of `records` are needed for each line. Bytes past the
 * records stay. A refused call writes nothing. */
uint64_t portertrunk_read_lines(uint8_t entities, uint8_t names, const uint8_t *text, size_t text_bytes,
                                uint8_t *records, size_t records_bytes);

/* Writes the lines of records, twelve bytes each, at the front of the buffer `text`. Bytes past them stay. A refused call writes
 * nothing. What is read of a letter that was written are the records it was written from, and the other way round. */
uint64_t portertrunk_write_lines(uint8_t entities, uint8_t names, const uint8_t *records, size_t records_bytes,
                                 uint8_t *text, size_t text_bytes);

/* Says of a record, counted from 1, whether it is structurally well typed by a sheet of storage types, and if so which shelves
 * must hold it. A sheet is one block of 512 bytes: byte i - 1 is the code of name i, for each name of the bundle; zeros follow
 * up to byte 507; byte 508 is 100, byte 509 the number of names, and the check stands in bytes 510 and 511 as in every block.
 * The codes, issuer side first: 1 none and none, 2 none and all, 3 def and none, 4 def and all, 5 all and none, 6 all and all. */
uint64_t portertrunk_holders(const uint8_t *bundle, size_t bundle_bytes, const uint8_t *sheet, size_t sheet_bytes, uint8_t record);

/* The number of a refusal, or 0, in a result of any of them. */
static inline unsigned portertrunk_number(uint64_t result) { return (unsigned)(result >> 56); }

/* The other parts of a result of the search, of the tables or of the check; of holders the place alone. */
static inline unsigned portertrunk_place(uint64_t result) { return (unsigned)(result >> 40 & 0xffff); }
static inline unsigned portertrunk_verdict(uint64_t result) { return (unsigned)(result >> 32 & 0xff); }
static inline unsigned portertrunk_rounds(uint64_t result) { return (unsigned)(result >> 16 & 0xffff); }
static inline unsigned portertrunk_lines(uint64_t result) { return (unsigned)(result & 0xffff); }

/* The other part of a result of write, append, read_lines or write_lines: the length where the number is 0, and the place where it is not. */
static inline size_t portertrunk_length(uint64_t result) { return (size_t)(result & 0xffffffffffffff); }
static inline uint64_t portertrunk_wide_place(uint64_t result) { return result & 0xffffffffffffff; }

/* The other parts of a result of holders: whether the record is structurally well typed, and the shelves that must hold it. */
static inline unsigned portertrunk_well(uint64_t result) { return (unsigned)(result >> 32 & 1); }
static inline uint32_t portertrunk_shelves(uint64_t result) { return (uint32_t)(result & 0xffffffff); }

#ifdef __cplusplus
}
#endif

#endif
