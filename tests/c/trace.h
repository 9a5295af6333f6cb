/* Reads a line of a trace (docs/TRACES.md) as an observer is given it, for tests in C and in C++. It takes good traces: what is
 * none of a trace it doesn't look for. */
#ifndef TRACE_H
#define TRACE_H

#include "chihome.h"

#include <ctype.h>
#include <stdio.h>
#include <stdlib.h>
#include <string.h>

enum { WORD = 512, COLUMNS = 11, LINE = 65536 };

/* The columns of a line, each cut off behind WORD characters; whether it has all. */
typedef char Columns[COLUMNS][WORD];

static int columns_in(const char *line, Columns columns) {
    for (int column = 0; column < COLUMNS; column++) {
        size_t length = 0;
        while (isspace((unsigned char)*line)) line++;
        while (*line != 0 && !isspace((unsigned char)*line)) {
            if (length < WORD - 1) columns[column][length++] = *line;
            line++;
        }
        if (length == 0) return 0;
        columns[column][length] = 0;
    }
    return 1;
}

static uint64_t number_in(const char *word) { return strtoull(word, NULL, 16); }

/* The number from `first` to `last` that has the name, or the other one. */
static uint8_t named(const char *(*name_of)(uint8_t), const char *name, uint8_t first, uint8_t last, uint8_t other) {
    for (uint8_t number = first; number <= last; number++)
        if (strcmp(name_of(number), name) == 0) return number;
    return other;
}

/* The opcode of a name on a channel: one that is judged, one of Issue B that isn't, or what stands for a design's own. */
static uint8_t opcode_in(const char *channel, const char *name) {
    static const struct {
        const char *channel;
        uint8_t first, last, first_unjudged, last_unjudged, own;
    } RANGES[] = {
        {"REQ", CHI_Op_ReadNotSharedDirty, CHI_Op_PCrdReturn, CHI_Op_ReqLCrdReturn, CHI_Op_PrefetchTgt, CHI_Op_OtherRequest},
        {"SNP", CHI_Op_SnpOnce, CHI_Op_SnpMakeInvalid, CHI_Op_SnpLCrdReturn, CHI_Op_SnpUniqueFwd, CHI_Op_OtherSnoop},
        {"RSP", CHI_Op_RetryAck, CHI_Op_CompAck, CHI_Op_RespLCrdReturn, CHI_Op_SnpRespFwded, CHI_Op_OtherReply},
        {"DAT", CHI_Op_CompData, CHI_Op_NonCopyBackWrData, CHI_Op_DataLCrdReturn, CHI_Op_WriteDataCancel, CHI_Op_OtherReply},
        {"CPU", CHI_Op_Load, CHI_Op_Store, CHI_Op_Load, CHI_Op_Store, CHI_Op_None}};
    for (size_t place = 0; place < sizeof RANGES / sizeof *RANGES; place++) {
        if (strcmp(RANGES[place].channel, channel) != 0) continue;
        uint8_t own = RANGES[place].own;
        if (own == CHI_Op_OtherReply && strncmp(name, "Snp", 3) == 0) own = CHI_Op_OtherAnswer;
        own = named(chi_opcode_name, name, RANGES[place].first_unjudged, RANGES[place].last_unjudged, own);
        return named(chi_opcode_name, name, RANGES[place].first, RANGES[place].last, own);
    }
    return CHI_Op_None;
}

/* The words of data, between commas or as one number of 128 digits, and which of them are there. */
static void read_words(const char *word, ChiSeen *seen) {
    if (strchr(word, ',') == NULL) {
        char digits[17] = {0};
        if (strncmp(word, "0x", 2) == 0) word += 2;
        seen->mask = 255;
        for (int place = 0; place < 8 && strlen(word) == 128; place++)
            seen->words[7 - place] = number_in((const char *)memcpy(digits, word + 16 * place, 16));
        return;
    }
    for (int place = 0; place < 8; place++) {
        if (*word != 'x') seen->mask |= (uint8_t)(1 << place);
        seen->words[place] = *word == 'x' ? 0 : number_in(word);
        word = strchr(word, ',');
        if (word++ == NULL) return;
    }
}

/* Whether a line has a flit, a load or a store, which it reads. */
static int read_flit(const char *line, uint64_t number, ChiSeen *seen) {
    static Columns columns;
    memset(seen, 0, sizeof *seen);
    while (*line == ' ' || *line == '\t' || *line == '\r') line++;
    if (*line == '#' || !columns_in(line, columns)) return 0;
    seen->number = number;
    seen->opcode = opcode_in(columns[0], columns[4]);
    seen->source = (uint16_t)number_in(columns[1]);
    seen->target = (uint16_t)number_in(columns[2]);
    seen->txn = (uint16_t)number_in(columns[3]);
    seen->has_address = strcmp(columns[5], "-") != 0;
    seen->address = number_in(columns[5]);
    seen->resp = named(chi_resp_name, columns[6], CHI_Resp_I, CHI_Resp_SD_PD, CHI_Resp_I);
    /* (a Comp with another RESP has no DBID) */
    seen->has_dbid = strcmp(columns[7], "-") != 0 && (seen->opcode != CHI_Op_Comp || seen->resp == CHI_Resp_UC);
    seen->dbid = (uint16_t)number_in(columns[7]);
    seen->allow_retry = columns[8][0] == '1';
    seen->credit = (uint8_t)number_in(columns[9]);
    if (seen->opcode == CHI_Op_Load || seen->opcode == CHI_Op_Store) seen->words[0] = number_in(columns[10]);
    else if (columns[0][0] == 'D') read_words(columns[10], seen);
    return 1;
}

#endif
