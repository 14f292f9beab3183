/*
 * Jutetrowel's static library, libjutetrowel.a, for C (C99 or later) and C++ on x86-64 with the
 * System V calling convention. docs/LIBRARY.md says how to build and link it and what is assumed of a
 * caller; docs/REFUSALS.md has the refusals and docs/CONTRACTS.md what is proved of each function.
 *
 * A pointer and the size_t after it are a lent array: that many elements, valid and aligned, for as
 * long as the call lasts. No pointer is null, not even one to no elements. What a call writes overlaps
 * nothing else that it is lent. A refused call writes nothing.
 */
#ifndef JUTETROWEL_H
#define JUTETROWEL_H

#include <stddef.h>
#include <stdint.h>

#ifdef __cplusplus
extern "C" {
#endif

/* The words of a sheet's 14 fields, in bytes, and of a worksheet's 15; the figures of a sheet; the
 * bytes of an F2 record, of a month file and of a year file's directory; the 32-bit words of a
 * worksheet. */
#define JT_INPUT_BYTES 56
#define JT_OPEN_BYTES 60
#define JT_FIGURES 151
#define JT_RECORD_BYTES 7904
#define JT_MONTH_FILE_BYTES 38552
#define JT_DIRECTORY_BYTES 112
#define JT_WORKSHEET_WORDS 96

/* The blended coefficients of the six maps and of the height map; those of the six maps at an hour. */
#define JT_COEFFICIENTS 2604
#define JT_HEIGHTS 464
#define JT_HOUR_MAPS 318

/* The F2 models. */
enum {
    JT_CCIR = 0,
    JT_URSI = 1
};

/* The numbers of refusals; docs/REFUSALS.md says why each is given and what its place is. 7 is given
 * for a flag (place 8) and for a model (place 15) that is neither 0 nor 1; 23 for a word of the F2
 * record or of the month file's tables that is no finite number, the record being looked at first. */
enum {
    JT_REFUSED_MONTH = 1,
    JT_REFUSED_SUNSPOT = 2,
    JT_REFUSED_HOUR = 3,
    JT_REFUSED_LATITUDE = 4,
    JT_REFUSED_LONGITUDE = 5,
    JT_REFUSED_FACTOR = 6,
    JT_REFUSED_FLAG = 7,
    JT_REFUSED_RECORD = 8,
    JT_REFUSED_ENDED = 9,
    JT_REFUSED_MARKER = 10,
    JT_REFUSED_INDEX = 11,
    JT_REFUSED_FIGURES = 12,
    JT_REFUSED_TABLE = 13,
    JT_REFUSED_DESK = 14,
    JT_REFUSED_DRAFTED = 15,
    JT_REFUSED_NO_DRAFT = 16,
    JT_REFUSED_STALE = 17,
    JT_REFUSED_NOTHING_EARLIER = 18,
    JT_REFUSED_YEAR = 19,
    JT_REFUSED_WORD = 23
};

/* A refusal's number and place; 0 and 0 where nothing is refused. */
typedef struct {
    uint32_t number;
    uint32_t place;
} jt_answer;

/* How many points a sheet has (1, 3 or 5); refused, 0 with the refusal's number and place. */
typedef struct {
    uint32_t points;
    uint32_t number;
    uint32_t place;
} jt_showing;

/* A part of a lent file, in bytes from its start; refused, 0 and 0 with the refusal's number and
 * place. */
typedef struct {
    size_t start;
    size_t size;
    uint32_t number;
    uint32_t place;
} jt_span;

/* A time and its change of day, -1, 0 or 1; refused, both +0. */
typedef struct {
    float time;
    float day;
    uint32_t number;
    uint32_t place;
} jt_clock_answer;

/* An hour in universal time, and in local time at the transmitter and at the receiver; refused, all
 * +0. */
typedef struct {
    float gmt;
    float lmt_tx;
    float gmtr;
    uint32_t number;
    uint32_t place;
} jt_hours_answer;

/* A path: its length in radians and in kilometres, its bearings in radians, the receiver's latitude as
 * used and the path's absolute latitude in degrees, the bearings in degrees, and how many points. */
typedef struct {
    float gcd;
    float gcd_km;
    float btr;
    float brt;
    float rlatd;
    float alatd;
    float btr_deg;
    float brt_deg;
    uint32_t points;
} jt_measured;

/* The layers at a place, E, F1 and F2 in each array; refused, all +0. */
typedef struct {
    uint32_t number;
    uint32_t place;
    float fi[3];
    float yi[3];
    float hi[3];
    float f2m3;
    float hpf2;
    float rat;
    float abiy;
    float clck;
    float zenang;
    float zenmax;
} jt_layers;

/* A local time; refused, +0. */
typedef struct {
    float time;
    uint32_t number;
    uint32_t place;
} jt_local_answer;

/* ---- Sheets ----
 *
 * The 14 fields, in this order: month, sunspot number, hour (GMT), transmitter latitude and longitude,
 * receiver latitude and longitude, long-path flag, four factors, pole latitude and longitude. As
 * words they are 4 bytes each, little-endian: month and flag whole numbers, the others the bits of a
 * float. Bytes that are not there count as 0, later ones are ignored.
 *
 * f2 is the month's F2 record (JT_RECORD_BYTES; later bytes are ignored), file the month file. The
 * figures are six for the path and 29 for each of five points, +0 where there is no such point. */

/* A whole sheet from words: every field is checked, then the buffer, then the files. It has no model:
 * the record is the caller's, and a 15th word is not read. */
jt_showing jt_sheet(const uint8_t *words, size_t words_size, const uint8_t *f2, size_t f2_size,
                    const uint8_t *file, size_t file_size, float *out, size_t out_count);

/* A sheet's figures from its fields one by one. No field is checked: only the buffer and the files
 * are. A flag that is not 0 is the long way round. */
jt_showing jt_figures(uint32_t month, float ssn, float gmt, float tlat, float tlong, float rlat,
                      float rlong, uint32_t long_path, float psc_e, float psc_f1, float psc_f2,
                      float psc_es, float pole_lat, float pole_lon, const uint8_t *f2,
                      size_t f2_size, const uint8_t *file, size_t file_size, float *out,
                      size_t out_count);

/* ---- The worksheet of four desks ----
 *
 * It has a sheet's 14 fields and a 15th, the F2 model, a whole number: 0 CCIR, 1 URSI.
 *
 * Its value is 96 words that the caller keeps: six sets of 16, which are the inputs, the earlier set
 * and the drafts of desks 1 to 4. A set's first word says what there is (inputs: not looked at; earlier
 * set: 0 none; draft: 0 closed, 1 fresh, else stale), and the 15 fields follow, month, flag and model as
 * whole numbers, the others as the bits of a float. Any 96 words are some worksheet, whose showing
 * refuses a field that is out of range. A worksheet has one form as it is written: first words 1, 0 or
 * 1, and 0, 1 or 2; a set that is not there all 0; any NaN 7fc00000. */

/* Opens a worksheet from its 15 words (JT_OPEN_BYTES): all desks closed, nothing to take back. Bytes
 * that are not there count as 0, so that a sheet's 14 words open it with model 0. */
jt_answer jt_open(const uint8_t *words, size_t words_size, uint32_t sheet[JT_WORKSHEET_WORDS]);

/* A fresh draft for a desk, a copy of the worksheet's inputs. */
jt_answer jt_begin(uint32_t sheet[JT_WORKSHEET_WORDS], uint32_t desk);

/* A change of a desk's draft. A path's flag that is neither 0 nor 1 is refused (7, place 8). */
jt_answer jt_change_sunspot(uint32_t sheet[JT_WORKSHEET_WORDS], uint32_t desk, float ssn);
jt_answer jt_change_hour(uint32_t sheet[JT_WORKSHEET_WORDS], uint32_t desk, float gmt);
jt_answer jt_change_path(uint32_t sheet[JT_WORKSHEET_WORDS], uint32_t desk, float tlat, float tlong,
                         float rlat, float rlong, uint32_t long_path);
jt_answer jt_change_factors(uint32_t sheet[JT_WORKSHEET_WORDS], uint32_t desk, float psc_e,
                            float psc_f1, float psc_f2, float psc_es);
jt_answer jt_change_pole(uint32_t sheet[JT_WORKSHEET_WORDS], uint32_t desk, float pole_lat,
                         float pole_lon);

/* A change of the month. Shown over a pair of files (jt_show), a draft whose month was changed has the
 * new month's sun over the old month's files unless the caller exchanges them, which the worksheet
 * cannot know; a year file's parts (jt_show_year) are picked by the month. */
jt_answer jt_change_month(uint32_t sheet[JT_WORKSHEET_WORDS], uint32_t desk, uint32_t month);

/* A change of the F2 model; one that is neither 0 nor 1 is refused (7, place 15). Over a pair of files
 * it picks nothing: the record is the caller's. */
jt_answer jt_change_model(uint32_t sheet[JT_WORKSHEET_WORDS], uint32_t desk, uint32_t model);

/* The draft becomes the inputs, these the earlier set; every other open draft turns stale. */
jt_answer jt_commit(uint32_t sheet[JT_WORKSHEET_WORDS], uint32_t desk);

/* The draft goes, nothing else moves. */
jt_answer jt_cancel(uint32_t sheet[JT_WORKSHEET_WORDS], uint32_t desk);

/* The earlier set returns; every open draft turns stale. */
jt_answer jt_take_back(uint32_t sheet[JT_WORKSHEET_WORDS]);

/* The figures of a desk's draft, stale or not, or of the worksheet for desk 0, over a pair of files.
 *
 * The files are taken as they are lent. Where the month was changed in the draft shown, or by a commit
 * or take-back since the pair was chosen, the figures are the new month's sun over the files as they
 * are lent; a changed model picks no other record. Over a year file (jt_show_year) that cannot happen.
 * A caller who picks the pair anew finds month and model in the set that is shown, which starts at word
 * 0 for the worksheet and at word 16 + 16 * desk for a draft: the month is word 1 of the set and the
 * model word 15, counted from 0. */
jt_showing jt_show(const uint32_t sheet[JT_WORKSHEET_WORDS], uint32_t desk, const uint8_t *f2,
                   size_t f2_size, const uint8_t *file, size_t file_size, float *out,
                   size_t out_count);

/* The same over a year file, of which the month and the model shown pick the parts. After the buffer
 * its directory is judged (19), then whether the model's part has the month's record (8), then the
 * month's part (9, 10), the words of the record and of that part (23), and its index table (11).
 * Places in the part count from its start, those in the record from the record's. */
jt_showing jt_show_year(const uint32_t sheet[JT_WORKSHEET_WORDS], uint32_t desk, const uint8_t *year,
                        size_t year_size, float *out, size_t out_count);

/* ---- Files ---- */

/* Where a month's record lies in a .daw file. */
jt_span jt_month_record(const uint8_t *daw, size_t daw_size, uint32_t month);

/* Where a table lies: number 0, the F2 planes, in the F2 record; 1 to 20, ikim to xercof in the file's
 * order, in the month file. Both files are checked for every number. */
jt_span jt_table(uint32_t number, const uint8_t *f2, size_t f2_size, const uint8_t *file,
                 size_t file_size);

/* The month file's form alone; and whether the file can be used: its form, then that the words of its
 * tables are finite numbers (23), then its index table. */
jt_answer jt_month_file_check(const uint8_t *file, size_t file_size);
jt_answer jt_file_check(const uint8_t *file, size_t file_size);

/* A year file starts with its directory (JT_DIRECTORY_BYTES): 14 pairs of offset and length, 4 bytes
 * each, little-endian, for the month files of months 1 to 12, then the .daw files of CCIR and URSI. The
 * first offset is at least JT_DIRECTORY_BYTES, each part starts at or after the end of the one before,
 * and the last ends within the file. */

/* The directory alone: 19 with the lowest pair, 1 to 14, that is not wholly there or breaks a rule. */
jt_answer jt_year_check(const uint8_t *year, size_t year_size);

/* Where a month's file lies in a year file. A month that is not 1 to 12 is refused (1, place 1), before
 * the directory. */
jt_span jt_year_month(const uint8_t *year, size_t year_size, uint32_t month);

/* Where a model's .daw file lies in a year file, in which jt_month_record finds a month's record. A
 * model that is neither 0 nor 1 is refused (7, place 15), before the directory. */
jt_span jt_year_model(const uint8_t *year, size_t year_size, uint32_t model);

/* ---- Parts of a sheet by themselves ----
 *
 * For comparing and timing. They refuse files as a sheet does, and take numbers as they are: no field
 * is checked but the month of jt_layers_at. */

/* The blended coefficients of the six maps at a sunspot number, and those of the height map. */
jt_answer jt_cofion(const uint8_t *f2, size_t f2_size, const uint8_t *file, size_t file_size,
                    float ssn, float out[JT_COEFFICIENTS]);
jt_answer jt_hmym(const uint8_t *file, size_t file_size, float ssn, float out[JT_HEIGHTS]);

/* The coefficients of the six maps at an hour. */
jt_answer jt_hour_maps(const uint8_t *f2, size_t f2_size, const uint8_t *file, size_t file_size,
                       float ssn, float gmt, float ab[JT_HOUR_MAPS]);

/* A path by its ends in degrees; a flag that is not 0 is the long way round. */
jt_measured jt_path(float tlat, float tlong, float rlat, float rlong, uint32_t long_path,
                    float pole_lat, float pole_lon);

/* The layers at a place in radians, from the maps at the hour and the month file. A month that is not
 * 1 to 12 is refused (1, place 1), before the file. */
jt_layers jt_layers_at(uint32_t month, float ssn, float gmt, float psc_e, float psc_f1, float psc_f2,
                       float psc_es, const float ab[JT_HOUR_MAPS], const uint8_t *file,
                       size_t file_size, float pole_lat, float pole_lon, float lat, float lon);

/* ---- Clocks: times in hours, longitudes in degrees ---- */

/* A universal time made local at a longitude, and a local time made universal. */
jt_clock_answer jt_cngtim_to_local(float time, float lon);
jt_clock_answer jt_cngtim_to_universal(float time, float lon);

/* A whole hour at both ends of a path; where local is not 0 it is the transmitter's local time. */
jt_hours_answer jt_geotim(uint32_t hour, uint32_t local, float tlong, float rlong);

/* The local time at one place for a universal time. */
jt_local_answer jt_geotim_clck(float gmt, float lon);

/* ---- Arithmetic, in document 01's steps ---- */

float jt_abs32(float x);
double jt_abs64(double x);
float jt_min(float a, float b);
float jt_max(float a, float b);
/* The size of a, negative where b is below zero or a NaN; -0 is not below zero. A NaN for a NaN as a. */
float jt_sign(float a, float b);
double jt_widen(float x);
float jt_narrow(double x);
float jt_sqrt32(float x);
double jt_sqrt64(double x);
int32_t jt_to_i32(float x);
float jt_from_i32(int32_t n);
uint64_t jt_to_u64(double x);
float jt_sin32(float x);
float jt_cos32(float x);
float jt_atan32(float x);
float jt_acos32(float x);
float jt_exp32(float x);
float jt_ln32(float x);
double jt_sin64(double x);
double jt_cos64(double x);
double jt_atan64(double x);
double jt_acos64(double x);
double jt_exp64(double x);
double jt_ln64(double x);

#ifdef __cplusplus
}
#endif

#endif
