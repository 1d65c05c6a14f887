/* What was compared and met, and the closing line. */
#include <stdio.h>
#include <stdlib.h>

#include "cases.h"

void (*tell_case)(void);

enum { PARTS = 8, WIDTHS = 2 };
static uint64_t numbers[GROUPS][256], worded[ON_DEVICES][256], devices[ON_DEVICES][PARTS + 1][WIDTHS];
static uint64_t phases[WIDTHS][256], stages[WIDTHS][256], edges[EDGES], marks[MARKS];
static uint64_t erases[2][PARTS + 1][WIDTHS][TB_BLOCKS_MOST]; /* counted in a cycle, and in a run */
static uint64_t all_blocks, all_cycles, all_table_cycles, all_loads, all_files, all_steps, all_readings, all_reports, all_recordings, all_stores;
static uint64_t all_helds, all_held_steps, all_knots;

void met(int group, uint8_t number) { numbers[group][number]++; }
void met_on(int group, uint8_t part, uint8_t word, uint8_t number, bool refused) {
    met(group, number);
    if (real_mode(part, word))
        worded[group][number]++;
    if (!refused)
        devices[group][part][word]++;
    mark_if(number == TB_NO_DEVICE && word > TB_WORD_MODE, NO_MODE);
    mark_if(number == TB_NO_DEVICE && word == TB_WORD_MODE && part >= 1 && part <= 4, NO_WORDS);
}
void met_phase(uint8_t phase, bool word) { phases[word][phase]++; }
void met_stage(uint8_t stage, bool word) { stages[word][stage]++; }
void met_vpp(uint32_t vpp) {
    for (int i = 0; i < EDGES; i++)
        edges[i] += vpp == vpp_edges[i];
}
void met_erase(bool in_run, tb_device d, int block) { erases[in_run][d.number][d.word][block]++; }
void mark_if(bool seen, int which) { marks[which] += seen; }
void count_block(void) { all_blocks++; }
void count_cycle(void) { all_cycles++; }
void count_table_cycle(void) { all_table_cycles++; }
void count_load(void) { all_loads++; }
void count_file(void) { all_files++; }
void count_step(void) { all_steps++; }
void count_reading(void) { all_readings++; }
void count_report(void) { all_reports++; }
void count_recording(void) { all_recordings++; }
void count_store(void) { all_stores++; }
void count_held(void) { all_helds++; }
void count_held_step(void) { all_held_steps++; }
void count_knot(void) { all_knots++; }

static void counts(void) {
    printf("%llu blocks of parts, %llu cycles, %llu by the table, %llu loads, %llu files, %llu steps, %llu readings, %llu reports, "
           "%llu recordings, %llu calls on stores",
           (unsigned long long)all_blocks, (unsigned long long)all_cycles, (unsigned long long)all_table_cycles,
           (unsigned long long)all_loads, (unsigned long long)all_files, (unsigned long long)all_steps, (unsigned long long)all_readings,
           (unsigned long long)all_reports, (unsigned long long)all_recordings, (unsigned long long)all_stores);
    printf(", %llu interrupted loads, %llu steps of such, %llu knots", (unsigned long long)all_helds, (unsigned long long)all_held_steps,
           (unsigned long long)all_knots);
}

void mismatch(const char *what) {
    printf("mismatch in %s:\n", what);
    tell_case();
    printf("MISMATCH after ");
    counts();
    printf("\n");
    exit(1);
}

/* For each function the numbers that it can give: refusals, and for steps and runs the ends; 0 is none or a good end.
 * (R-number-1 to R-number-48) */
static const struct {
    const char *name;
    uint8_t can[20];
    size_t n;
} wanted[GROUPS] = {
    [IN_CYCLE] = {"cycle", {0, 1, 2, 3, 4, 5, 6, 7, 8, 9}, 10},
    [IN_TABLE_CYCLE] = {"cycle by the table", {0, 1, 2, 3, 4, 5, 6, 7, 8, 9}, 10},
    [IN_RECORDING] = {"recording", {0, 1, 2, 3, 12}, 5},
    [IN_START] = {"start", {0, 1, 4, 10, 11}, 5},
    [IN_STEP] = {"step", {0, 1, 3, 4, 10, 11, 20, 21, 22, 23, 24, 25}, 12},
    [IN_RUN] = {"run", {0, 1, 2, 3, 4, 10, 11, 12, 21, 23, 24}, 11},
    [IN_LOAD_RUN] = {"load alone", {0, 1, 2, 3, 4, 10, 11, 12, 21, 23, 24}, 11},
    [IN_VERIFY_RUN] = {"verify", {0, 1, 2, 3, 4, 10, 11, 12, 25}, 9},
    [IN_LOAD] = {"load", {0, 1, 2, 3, 4, 10, 11, 12, 21, 23, 24, 30, 31, 32, 33, 34, 35, 38}, 18},
    [IN_VERIFY_FILE] = {"verify a file", {0, 1, 2, 3, 4, 10, 11, 12, 25, 30, 31, 32, 33, 34, 35, 38}, 16},
    [IN_HELD_START] = {"start of an interrupted load", {0, 1, 4, 5, 10, 11, 37, 45, 46}, 9},
    [IN_HELD_STEP] = {"step of an interrupted load", {0, 1, 3, 4, 5, 10, 11, 20, 21, 22, 23, 24, 37, 45, 46}, 15},
    [IN_HELD_RUN] = {"interrupted load", {0, 1, 2, 3, 4, 5, 10, 11, 12, 21, 23, 24, 37, 45, 46}, 15},
    [IN_HELD_LOAD] = {"interrupted load from a file", {0, 2, 4, 5, 11, 31, 35}, 7},
    [IN_WRITE] = {"write", {0, 32, 36, 37}, 4},
    [IN_READ] = {"read", {0, 30, 31, 32, 33, 34, 35, 37, 38}, 9},
    [IN_TABLE] = {"table", {0, 40, 41}, 3},
    [IN_READING] = {"reading", {0, 31, 35, 37, 38, 40, 41}, 7},
    [IN_WEAR_ADD] = {"a trace more", {0, 1, 47, 48}, 4},
    [IN_WEAR_REPORT] = {"report", {0, 1, 11, 47, 48}, 5},
    [IN_WORDS] = {"words", {0, 1, 12, 13, 20, 25, 30, 38, 39, 40, 48, 49, 255}, 13},
    [IN_KNOT] = {"knot packed", {0, 37, 41, TB_TENTHS_TOO_WIDE}, 4},
    [IN_STORE_FIND] = {"find in a store", {0, 1, 2, 37, 42, 44}, 6},
    [IN_STORE_READ] = {"read in a store", {0, 1, 2, 37, 40, 41, 42, 44}, 8},
    [IN_STORE_DROP] = {"drop from a store", {0, 1, 2, 3, 4, 11, 12, 21, 42, 44}, 10},
    [IN_STORE_ADD] = {"add to a store", {0, 1, 2, 3, 4, 11, 12, 21, 30, 31, 32, 33, 34, 35, 38, 43, 44}, 17},
};

static const char *const mark_names[MARKS] = {
    [CUT_WORD] = "a word's program cut",
    [CUT_ERASE] = "an erase cut in word mode",
    [BAND_CHANGE] = "a change of high band in word mode",
    [TEN] = "10H",
    [HIGH_COMMAND] = "a command with a high byte in word mode",
    [HIGH_DATA] = "a word of data",
    [BYTE_HIGH_DATA] = "a high byte of data in byte mode",
    [CODE_BY_WORD] = "a code in word mode",
    [CODE_BY_BYTE] = "a code in byte mode on 5 to 8",
    [UNLOCKED_BY_WP] = "the boot block unlocked by WP#",
    [LOCKED_BY_WP] = "the boot block locked by WP#",
    [WP_REFUSED] = "a wrong WP# on 5 to 8",
    [WP_IGNORED] = "a wrong WP# on 1 to 4",
    [NO_MODE] = "a mode that is none",
    [NO_WORDS] = "word mode on 1 to 4",
    [ODD_ARRAY] = "an odd array in word mode",
    [ODD_RESIDUE] = "an odd residue in word mode",
    [ODD_WANTED] = "an odd wanted in word mode",
    [ODD_SCRATCH] = "an odd scratch in word mode",
    [LOADED_AT_5V] = "a load at 5 V in word mode",
    [LOADED_AT_12V] = "a load at 12 V in word mode",
    [BOOT_LOADED_BY_WP] = "a boot block loaded by WP#",
    [LOW_DIFFERS] = "25 at a low byte",
    [HIGH_DIFFERS] = "25 at a high byte",
    [COUNT_TO_STOP] = "a count that reaches the stop",
    [COUNT_AT_STOP] = "an erase counted at the stop",
    [COUNT_ELSEWHERE] = "20H in another block than D0H",
    [KEPT_BARRED] = "a confirm barred by low VPP, over a count",
    [KEPT_BY_SR3] = "a confirm barred by SR.3, over a count",
    [KEPT_LOCKED] = "a locked confirm, over a count",
    [KEPT_OTHER_SECOND] = "20H and no confirm, over a count",
    [KEPT_ASKED] = "20H, over a count",
    [KEPT_RESUMED] = "a resume, over a count",
    [KEPT_SUSPENDED] = "B0H, over a count",
    [KEPT_CUT] = "an erase cut by VPP, over a count",
    [KEPT_HELD_CUT] = "a suspended erase cut, over a count",
    [KEPT_ENDED] = "an erase's end, over a count",
    [KEPT_RESET] = "a reset at rest, over a count",
    [KEPT_RESET_CUT] = "a reset in an erase, over a count",
    [KEPT_PROGRAM] = "a program begun, over a count",
    [KEPT_REFUSED] = "a refused cycle, over a count",
    [KEPT_PLACES] = "an erase beside a count where there is no block",
    [LOAD_AT_STOP] = "a load that erases at the stop",
    [LOAD_NOT_COUNTED] = "a load that erases nothing, over a count",
    [LOAD_BARRED] = "a load whose erase does not start, over a count",
    [VERIFY_NOT_COUNTED] = "a verify, over a count",
    [RUN_REFUSED_KEPT] = "a refused run, over a count",
    [TRACES_NONE] = "a report on no traces",
    [TRACES_MOST] = "a report on 65,535 traces",
    [TRACES_OVER] = "65,536 traces",
    [TRACES_TURNED] = "traces in another order",
    [ONE_HUNDRED_THOUSAND] = "a count of 100,000 in a report",
    [TOTAL_OVER_32_BITS] = "a total over 32 bits",
    [TOTAL_STOPPED] = "a forged total at its stop",
    [PASSED_STOPPED] = "a forged number of traces passed at its stop",
    [OTHER_FIRST] = "another device in the first trace",
    [OTHER_LAST] = "another device in the last trace",
    [FROM_UNKNOWN] = "a trace from a device that is none",
    [ACCEPTED] = "a recording accepted",
    [ACCEPTED_EMPTY] = "a recording of no records accepted",
    [ACCEPTED_ERASE] = "a recording accepted with an erase",
    [ACCEPTED_SUSPENDED] = "a recording accepted with a suspend",
    [FAULT_FIRST] = "the first record at fault",
    [FAULT_LAST] = "the last record at fault",
    [FAULT_IN_END] = "a fault in the record that ends an operation",
    [FAULT_CUT] = "a record that cuts",
    [FAULT_HELD_CUT] = "a record that cuts a suspended erase",
    [FAULT_COUNT] = "a busy count of 0 or over 65,535",
    [FAULT_COUNT_WRAPS] = "a busy count over 65,535 that 16 bits would take",
    [FAULT_SEEN] = "an answer seen that is none",
    [FAULT_AWAITING] = "a recording that ends awaiting",
    [FAULT_PROMISED] = "another array promised",
    [FAULT_PROMISED_LENGTH] = "an array of another length promised",
    [COUNT_UNREAD] = "a count of 0 that is not read, at a second write",
    [STORE_SLID] = "a store's files that slide",
    [STORE_SLID_REPLACED] = "files that slide and one that is replaced",
    [STORE_REPLACED] = "a file replaced without a slide",
    [STORE_FULL_REPLACED] = "43 for a letter that is there",
    [STORE_FULL_LONG] = "43 for a file longer than the block",
    [STORE_ON_BR] = "an add on devices 5 to 8",
    [STORE_NO_LETTER] = "42 for a letter that is none",
    [STORE_NO_WORDS] = "a find on devices 5 to 8",
    [HELD_USUAL] = "a usual step of an interrupted load",
    [HELD_HALTING] = "B0H in a poll's place",
    [HELD_LOOKING] = "70H in an interruption",
    [HELD_SETTLING] = "a poll of a suspend's own wait",
    [HELD_TURNING] = "FFH in an interruption",
    [HELD_FETCHING] = "a read in an interruption",
    [HELD_RESUMING] = "D0H in an interruption",
    [HELD_MADE] = "a load with interruptions",
    [HELD_WORDS] = "a load with interruptions in word mode",
    [HELD_NO_READS] = "interruptions without reads",
    [HELD_ALL_READS] = "interruptions of 4,096 reads",
    [HELD_NEVER] = "polls that never came",
    [HELD_NO_ERASE] = "polls listed where nothing is erased",
};

static int missing;

static void one(bool verbose, const char *name, const char *with, uint32_t what, uint64_t count) {
    if (verbose)
        printf("  %u: %llu", what, (unsigned long long)count);
    if (count == 0) {
        printf("%s%s%s %u was never met\n", verbose ? "\n" : "", name, with, what);
        missing++;
    }
}

static void line(bool verbose, const char *name, const char *with, const uint64_t *count, const uint8_t *can, size_t n) {
    if (verbose)
        printf("%-6s%s", name, with);
    for (size_t i = 0; i < n; i++)
        one(verbose, name, with, can[i], count[can[i]]);
    if (verbose)
        printf("\n");
}

/* On a device in word mode the same numbers come, but for 1 in a start and a step: they know of no times. */
static void line_of_words(bool verbose, int g) {
    uint8_t can[sizeof wanted[g].can];
    size_t n = 0;
    for (size_t i = 0; i < wanted[g].n; i++)
        if (wanted[g].can[i] != TB_NO_DEVICE || (g != IN_START && g != IN_STEP && g != IN_HELD_START && g != IN_HELD_STEP))
            can[n++] = wanted[g].can[i];
    line(verbose, wanted[g].name, ", word mode", worded[g], can, n);
}

/* Every device in every mode that it has, in calls that were not refused. (R-part-1, R-part-6) */
static void line_of_devices(bool verbose, int g) {
    for (uint32_t word = 0; word < WIDTHS; word++) {
        const char *with = word ? ", words of device" : ", bytes of device";
        if (verbose)
            printf("%-6s%s", wanted[g].name, with);
        for (uint32_t part = word ? TB_28F200BR_T : 1; part <= PARTS; part++)
            one(verbose, wanted[g].name, with, part, devices[g][part][word]);
        if (verbose)
            printf("\n");
    }
}

/* An erase was counted at every block of every device in every mode, and in runs on every device in every mode. */
static void lines_of_erases(bool verbose) {
    for (uint32_t word = 0; word < WIDTHS; word++)
        for (uint8_t part = word ? TB_28F200BR_T : 1; part <= PARTS; part++) {
            char name[64];
            uint64_t in_runs = 0;
            snprintf(name, sizeof name, "erases counted on device %u, %s", part, word ? "words" : "bytes");
            if (verbose)
                printf("%s, by block", name);
            for (uint8_t k = 0; c_block(part, k).length != 0; k++) {
                one(verbose, name, ", block", k, erases[0][part][word][k]);
                in_runs += erases[1][part][word][k];
            }
            if (verbose)
                printf("; in runs");
            one(verbose, name, ", in runs of device", part, in_runs);
            if (verbose)
                printf("\n");
        }
}

static void lines_of_marks(bool verbose) {
    for (int i = 0; i < MARKS; i++) {
        if (verbose)
            printf("%s: %llu\n", mark_names[i], (unsigned long long)marks[i]);
        if (marks[i] != 0)
            continue;
        printf("%s was never met\n", mark_names[i]);
        missing++;
    }
    if (verbose)
        printf("VPP");
    for (int i = 0; i < EDGES; i++)
        one(verbose, "VPP", "", vpp_edges[i], edges[i]);
    if (verbose)
        printf("\n");
}

int closing(uint64_t seed, bool verbose) {
    static const uint8_t up[12] = {0, 1, 2, 3, 4, 5, 6, 7, 8, 9, 10, 11};
    for (int g = 0; g < GROUPS; g++)
        line(verbose, wanted[g].name, "", numbers[g], wanted[g].can, wanted[g].n);
    for (int g = 0; g < ON_DEVICES; g++) {
        line_of_words(verbose, g);
        line_of_devices(verbose, g);
    }
    for (int word = 0; word < WIDTHS; word++) {
        line(verbose, "phase", word ? ", word mode" : "", phases[word], up, 7);
        line(verbose, "stage", word ? ", word mode" : "", stages[word], up, 12);
    }
    lines_of_erases(verbose);
    lines_of_marks(verbose);
    if (missing != 0)
        return 1;
    counts();
    printf(", seed %llu: no mismatch\n", (unsigned long long)seed);
    return 0;
}
