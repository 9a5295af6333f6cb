/* Toy caches read, store, drop and write back at random at a home that is nothing like the model's: it keeps no filter but
 * snoops every other cache for each read, and passes dirty data on to the reader, so that its memory has them only once they
 * are written back. An observer is given each flit. By the word `forgets` the home leaves the last cache out, and by `early`
 * it sends its data before the last answer. The same bench is there in C++, in Python and in SystemVerilog. */
#include "chihome.h"

#include <stdio.h>
#include <stdlib.h>
#include <string.h>

enum { CACHES = 3, LINES = 2, TURNS = 1000, HOME = 0x40, FIRST_CACHE = 8 };

static ChiCopy copies[CACHES][LINES];
static uint64_t memory[LINES][8];
static int forgets, early;
static ChiObserver observer;
static uint64_t number;

/* Gives a flit to the observer, as a monitor at the home sees it, and tells the first that it doesn't take. */
static void see(ChiSeen flit) {
    uint8_t bytes[4096], answer;
    size_t length;
    flit.number = ++number;
    answer = chi_observer_take(&observer, &flit);
    if (answer == CHI_OK) return;
    chi_observer_text(&observer, bytes, sizeof bytes, &length);
    printf("%s: %.*s\n", chi_refusal_name(answer), (int)length, (const char *)bytes);
    chi_observer_close(&observer);
    exit(1);
}

/* A flit between a cache and the home about a line, whose number is the TxnID and the DBID of each. */
static ChiSeen flit_of(uint8_t opcode, int cache, int line, int is_up) {
    ChiSeen flit = {.opcode = opcode, .txn = (uint16_t)line, .address = 0x1000 + 64 * (uint64_t)line, .allow_retry = 1};
    flit.source = (uint16_t)(is_up ? FIRST_CACHE + cache : HOME);
    flit.target = (uint16_t)(is_up ? HOME : FIRST_CACHE + cache);
    return flit;
}

static void send(uint8_t opcode, int cache, int line, int is_up) { see(flit_of(opcode, cache, line, is_up)); }

static void send_data(uint8_t opcode, int cache, int line, int is_up, uint8_t resp, const uint64_t *words) {
    ChiSeen flit = flit_of(opcode, cache, line, is_up);
    flit.resp = resp;
    flit.mask = 255;
    flit.dbid = (uint16_t)line;
    flit.has_dbid = opcode == CHI_Op_CompData;
    memcpy(flit.words, words, sizeof flit.words);
    see(flit);
}

/* The snooped cache answers: a dirty copy passes its data, and a copy that may stay is shared. */
static uint8_t snooped(int cache, int line, int may_stay, uint64_t *words) {
    ChiCopy *copy = &copies[cache][line];
    int is_dirty = copy->state == CHI_UD || copy->state == CHI_SD, stays = may_stay && copy->state != CHI_I;
    copy->state = stays ? CHI_SC : CHI_I;
    if (is_dirty) {
        uint8_t resp = stays ? CHI_Resp_SC_PD : CHI_Resp_I_PD;
        memcpy(words, copy->words, sizeof copy->words);
        send_data(CHI_Op_SnpRespData, cache, line, 1, resp, words);
        return resp;
    }
    ChiSeen flit = flit_of(CHI_Op_SnpResp, cache, line, 1);
    flit.resp = stays ? CHI_Resp_SC : CHI_Resp_I;
    see(flit);
    return flit.resp;
}

/* The home gives a copy: a shared one beside others, and with the duty to write what is dirty. */
static void complete(int cache, int line, int is_alone, int is_dirty, const uint64_t *words) {
    uint8_t state = is_alone ? (is_dirty ? CHI_UD : CHI_UC) : (is_dirty ? CHI_SD : CHI_SC);
    uint8_t resp = !is_dirty ? state : is_alone ? CHI_Resp_UD_PD : CHI_Resp_SD_PD;
    send_data(CHI_Op_CompData, cache, line, 0, resp, words);
    copies[cache][line].state = state;
    memcpy(copies[cache][line].words, words, sizeof copies[cache][line].words);
}

static void read(int cache, int line, int is_unique) {
    int stays = 0, is_dirty = 0, last = cache == CACHES - 1 ? CACHES - 2 : CACHES - 1, is_done = 0;
    uint64_t words[8];
    memcpy(words, memory[line], sizeof words);
    send(is_unique ? CHI_Op_ReadUnique : CHI_Op_ReadShared, cache, line, 1);
    for (int other = 0; other < CACHES; other++)
        if (other != cache && !(forgets && other == last))
            send(is_unique ? CHI_Op_SnpUnique : CHI_Op_SnpShared, other, line, 0);
    for (int other = 0; other < CACHES; other++) {
        if (other == cache || (forgets && other == last)) continue;
        is_done = early && other == last;
        if (is_done) complete(cache, line, is_unique || !stays, is_dirty, words);
        uint8_t resp = snooped(other, line, !is_unique, words);
        stays |= resp == CHI_Resp_SC || resp == CHI_Resp_SC_PD;
        is_dirty |= resp == CHI_Resp_SC_PD || resp == CHI_Resp_I_PD;
    }
    if (!is_done) complete(cache, line, is_unique || !stays, is_dirty, words);
    send(CHI_Op_CompAck, cache, line, 1);
}

static void write_back(int cache, int line) {
    ChiCopy *copy = &copies[cache][line];
    ChiSeen buffer = flit_of(CHI_Op_CompDBIDResp, cache, line, 0);
    buffer.has_dbid = 1;
    buffer.dbid = (uint16_t)line;
    send(CHI_Op_WriteBackFull, cache, line, 1);
    see(buffer);
    send_data(CHI_Op_CopyBackWrData, cache, line, 1, copy->state == CHI_UD ? CHI_Resp_UD_PD : CHI_Resp_SD_PD, copy->words);
    memcpy(memory[line], copy->words, sizeof copy->words);
    copy->state = CHI_I;
}

/* A cache does what is drawn at a line, if its copy lets it. */
static void turn(uint64_t drawn) {
    int cache = (int)(drawn % CACHES), line = (int)(drawn / 3 % LINES), act = (int)(drawn / 6 % 5);
    ChiCopy *copy = &copies[cache][line];
    int is_clean = copy->state == CHI_SC || copy->state == CHI_UC, is_unique = copy->state == CHI_UC || copy->state == CHI_UD;
    if (act == 0 && is_unique) {
        copy->words[drawn / 30 % 8] = drawn / 240 % 1000;
        copy->state = CHI_UD;
    } else if (act == 1 && is_clean) {
        copy->state = CHI_I;
    } else if (act == 2 && copy->state == CHI_I) {
        read(cache, line, 0);
    } else if (act == 3 && (copy->state == CHI_I || copy->state == CHI_SC)) {
        read(cache, line, 1);
    } else if (act == 4 && copy->state != CHI_I && !is_clean) {
        write_back(cache, line);
    }
}

int main(int count, char **words) {
    const ChiObserverConfig config = {.lines = LINES, .ids = 16, .accounts = 1, .requesters = CACHES, .homes = 1};
    uint64_t state = 7;
    ChiObserverCounts counts;
    forgets = count > 1 && strcmp(words[1], "forgets") == 0;
    early = count > 1 && strcmp(words[1], "early") == 0;
    if (chi_observer_open(&observer, &config) != CHI_OK) return 2;
    for (int made = 0; made < TURNS; made++) {
        state = state * 6364136223846793005u + 1442695040888963407u;
        turn(state >> 33);
    }
    chi_observer_counts(&observer, &counts);
    printf("%llu flits on %llu lines are taken, and %u ids are open\n", (unsigned long long)counts.flits,
           (unsigned long long)counts.lines, counts.requests + counts.completions + counts.snoops);
    return chi_observer_close(&observer);
}
