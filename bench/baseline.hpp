// The same algorithm as the proved program, written plainly in C++ for comparison of speed. It proves nothing and shares no code with it.
#pragma once
#include <cstddef>
#include <cstdint>

struct Table {
    uint32_t degree;
    size_t rows;
    uint64_t clusters[128];
    int32_t weights[128];
    uint8_t states[128];
    uint64_t lengths[128];
    uint64_t counts[128];
    uint8_t marks[128];
    int64_t bests[128];
    uint64_t members_low[128];
    uint64_t members_high[128];
};

// The refusal's number, 0 where the table is built.
int baseline_build(const uint8_t *list, size_t bytes, uint32_t degree, Table &table);

// The refusal's number, 0 where the row is rescored.
int baseline_rescore(Table &table, uint64_t cluster, int32_t weight, uint8_t state);

// Every result of every row added up, so that no part of the work can be left out.
uint64_t baseline_digest(const Table &table);

// The tuples of all rows.
uint64_t baseline_tuples(const Table &table);

// What an import gives beside the records in the room: the first line at fault where that is the refusal, else how many records were
// written, and how many columns have a ?.
struct Import {
    size_t line, told, unread;
};

// The refusal's number, 0 where the sheet is imported.
int baseline_import(const uint8_t *sheet, size_t bytes, uint8_t *room, size_t room_bytes, Import &import);
