/* The C exports of the product's records, checkpoint files and table.  A slice
   crosses as its pointer, then its length; an array as its pointer; a table as
   its text of 6,144 bytes. */

#ifndef SEALED_H
#define SEALED_H

#include <stddef.h>
#include <stdint.h>

enum sealed_answer {
    SEALED_DONE = 0,
    SEALED_BAD_KEY = 1,     /* the key is not 16 bytes */
    SEALED_SHORT = 3,       /* the output is too short */
    SEALED_TEXT = 4,        /* not a transaction, or not a table */
    SEALED_LANE = 5,        /* there is no such lane */
    SEALED_CLOSED = 9       /* the bytes do not open */
};

/* All but code are 0 where the bytes do not open. */
struct record_reply {
    uint64_t code, lane, epoch, number, len;
};

struct file_reply {
    uint64_t code, version, seal;
};

uint64_t sealed_prepare(const uint8_t *key, size_t key_len,
                        uint32_t schedule[44], uint64_t multiples[1024]);

/* On any answer but SEALED_DONE the output is byte for byte as it came, and
   the bytes behind what is put out always are. */
uint64_t sealed_put_record(const uint32_t schedule[44], const uint64_t multiples[1024],
                           uint8_t lane, uint64_t epoch, uint64_t number,
                           const uint8_t *text, size_t text_len,
                           uint8_t *out, size_t out_len);

uint64_t sealed_put_file(const uint32_t schedule[44], const uint64_t multiples[1024],
                         uint64_t version, uint64_t seal,
                         const uint8_t *table, size_t table_len,
                         uint8_t *out, size_t out_len);

/* 136 bytes go to the start of text, as many as it has room for: the
   transaction and zeros behind it, or zeros where the bytes do not open. */
struct record_reply sealed_open_record(const uint32_t schedule[44], const uint64_t multiples[1024],
                                       const uint8_t *s, size_t s_len,
                                       uint8_t *text, size_t text_len);

/* The same of the whole record that starts at an offset of a log. */
struct record_reply sealed_open_at(const uint32_t schedule[44], const uint64_t multiples[1024],
                                   const uint8_t *log, size_t log_len, size_t at,
                                   uint8_t *text, size_t text_len);

/* The table's text goes to the start of table, as much as it has room for;
   zeros where the bytes do not open. */
struct file_reply sealed_open_file(const uint32_t schedule[44], const uint64_t multiples[1024],
                                   const uint8_t *s, size_t s_len,
                                   uint8_t *table, size_t table_len);

/* Enters a transaction into a table, in its place. */
uint64_t sealed_enter(uint8_t *table, size_t table_len, const uint8_t *text, size_t text_len,
                      uint8_t lane, uint64_t number);

/* The same with transactions of 136 bytes that stand end to end, all of one
   lane and number; they are not looked at. */
uint64_t sealed_enter_each(uint8_t *table, size_t table_len, const uint8_t *texts, size_t texts_len,
                           uint8_t lane, uint64_t number);

#endif
