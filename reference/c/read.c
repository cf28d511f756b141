/* The readers of forms 1 to 7, 10 and 12. All test in the order of document 01: 3 (shape), 6 (sum), 4 (ranges), 5 (parts that disagree). */
#include "calendar.h"
#include "parse.h"
#include "plain.h"

const plain_shape plain_shapes[PLAIN_LAST_FORM + 1] = {
    [LINDENSCOOP_STANDARD] = {32, STX, ETX},
    [LINDENSCOOP_CAPTURE] = {31, 'C', '\n'},
    [LINDENSCOOP_ERLANGEN] = {66, STX, ETX},
    [LINDENSCOOP_SPA] = {32, '>', '\r'},
    [LINDENSCOOP_RACAL] = {16, 'X', '\r'},
    [LINDENSCOOP_SYSPLEX] = {16, SOH, '\n'},
    [LINDENSCOOP_COMPUTIME] = {24, 'T', '\n'},
    [LINDENSCOOP_SAT] = {29, STX, ETX},
    [LINDENSCOOP_RMC] = {65, '$', '\n'},
};

static inline uint32_t yes_if(bool test)
{
    return test ? LINDENSCOOP_YES : LINDENSCOOP_NO;
}

typedef struct date {
    uint32_t yy, month, day;
} date;

typedef struct daytime {
    uint32_t hour, minute, second;
} daytime;

/* The numbers of two digits that stand at three places. */
static inline date date_at(const uint8_t *s, int yy, int month, int day)
{
    return (date){number(s + yy, 2), number(s + month, 2), number(s + day, 2)};
}

static inline daytime time_at(const uint8_t *s, int hour, int minute, int second)
{
    return (daytime){number(s + hour, 2), number(s + minute, 2), number(s + second, 2)};
}

static inline bool is_time(daytime t)
{
    return t.hour <= 23 && t.minute <= 59 && t.second <= 60;
}

static inline bool is_date(date d)
{
    return calendar_is_date(d.yy, d.month, d.day);
}

static inline bool is_weekday(uint32_t w)
{
    return 1 <= w && w <= 7;
}

static inline bool is_weekday_of(uint32_t w, date d)
{
    return w == calendar_weekday(d.yy, d.month, d.day);
}

/* A full date and a time, all else absent. */
static inline lindenscoop_record record_of(date d, daytime t)
{
    return (lindenscoop_record){
        .hour = t.hour, .minute = t.minute, .second = t.second,
        .date = LINDENSCOOP_FULL_DATE, .yy = d.yy, .month = d.month, .day = d.day,
    };
}

/* <STX>D:dd.mm.yy;T:w;U:hh.mm.ss;uvxy<ETX> */
static uint32_t read_standard(const uint8_t *s, lindenscoop_record *r)
{
    if (!(IS_TEXT(s, "\2D:") && are_three(s + 3, '.') && IS_TEXT(s + 11, ";T:") && is_digit(s[14]) && IS_TEXT(s + 15, ";U:")
          && are_three(s + 18, '.') && s[26] == ';' && is_either(s[27], '#', ' ') && is_either(s[28], '*', ' ')
          && (is_either(s[29], 'U', 'S') || s[29] == ' ') && (is_either(s[30], '!', 'A') || s[30] == ' ') && s[31] == ETX))
        return LINDENSCOOP_WRONG_BYTE;

    const date d = date_at(s, 9, 6, 3);
    const daytime t = time_at(s, 18, 21, 24);
    const uint32_t weekday = number(s + 14, 1);
    if (!(is_time(t) && is_date(d) && is_weekday(weekday)))
        return LINDENSCOOP_OUT_OF_RANGE;
    if (!is_weekday_of(weekday, d))
        return LINDENSCOOP_DISAGREEMENT;

    *r = record_of(d, t);
    r->sync = yes_if(s[27] == ' ');
    r->fix = yes_if(s[28] == ' ');
    r->utc = yes_if(s[29] == 'U');
    r->summer = yes_if(s[29] == 'S');
    r->change = yes_if(s[30] == '!');
    r->leap = yes_if(s[30] == 'A');
    return LINDENSCOOP_OK;
}

/* CHx dd.mm.yy hh:mm:ss.fffffff<CR><LF> */
static uint32_t read_capture(const uint8_t *s, lindenscoop_record *r)
{
    if (!(IS_TEXT(s, "CH") && is_digit(s[2]) && s[3] == ' ' && are_three(s + 4, '.') && s[12] == ' ' && are_three(s + 13, ':')
          && s[21] == '.' && are_digits(s + 22, 7) && IS_TEXT(s + 29, "\r\n")))
        return LINDENSCOOP_WRONG_BYTE;

    const date d = date_at(s, 10, 7, 4);
    const daytime t = time_at(s, 13, 16, 19);
    const uint32_t channel = number(s + 2, 1);
    if (!(is_time(t) && is_date(d) && channel <= 1))
        return LINDENSCOOP_OUT_OF_RANGE;

    *r = record_of(d, t);
    r->fraction = LINDENSCOOP_TEN_MILLIONTHS;
    r->fraction_units = number(s + 22, 7);
    r->channel = LINDENSCOOP_PRESENT;
    r->channel_number = channel;
    return LINDENSCOOP_OK;
}

/* The first half of form 3, up to the letters: dd.mm.yy; w; hh:mm:ss; voo:oo; acdfg i; */
static inline bool is_erlangen_time(const uint8_t *s)
{
    return s[0] == STX && are_three(s + 1, '.') && IS_TEXT(s + 9, "; ") && is_digit(s[11]) && IS_TEXT(s + 12, "; ")
           && are_three(s + 14, ':') && IS_TEXT(s + 22, "; ") && is_either(s[24], '+', '-') && are_digits(s + 25, 2) && s[27] == ':'
           && are_digits(s + 28, 2) && IS_TEXT(s + 30, "; ") && is_either(s[32], '#', ' ') && is_either(s[33], '*', ' ')
           && is_either(s[34], 'S', ' ') && is_either(s[35], '!', ' ') && is_either(s[36], 'A', ' ') && s[37] == ' '
           && is_either(s[38], 'L', ' ') && s[39] == ';';
}

/* Its second half: bbb.bbbbn lll.lllle hhhhm */
static inline bool is_erlangen_place(const uint8_t *s)
{
    return is_padded(s + 40, 3) && s[43] == '.' && are_digits(s + 44, 4) && is_either(s[48], 'N', 'S') && s[49] == ' '
           && is_padded(s + 50, 3) && s[53] == '.' && are_digits(s + 54, 4) && is_either(s[58], 'E', 'W') && s[59] == ' '
           && is_padded(s + 60, 4) && s[64] == 'm' && s[65] == ETX;
}

static void store_erlangen_flags(const uint8_t *s, lindenscoop_record *r)
{
    r->sync = yes_if(s[32] == ' ');
    r->fix = yes_if(s[33] == ' ');
    r->summer = yes_if(s[34] == 'S');
    r->change = yes_if(s[35] == '!');
    r->leap = yes_if(s[36] == 'A');
}

static uint32_t read_erlangen(const uint8_t *s, lindenscoop_record *r)
{
    if (!(is_erlangen_time(s) && is_erlangen_place(s)))
        return LINDENSCOOP_WRONG_BYTE;

    const date d = date_at(s, 7, 4, 1);
    const daytime t = time_at(s, 14, 17, 20);
    const uint32_t weekday = number(s + 11, 1), minutes = number(s + 28, 2), offset = 60 * number(s + 25, 2) + minutes;
    const uint32_t latitude = 10000 * number(s + 40, 3) + number(s + 44, 4), longitude = 10000 * number(s + 50, 3) + number(s + 54, 4);
    if (!(is_time(t) && is_date(d) && is_weekday(weekday) && minutes <= 59 && offset <= 840 && latitude <= 900000 && longitude <= 1800000))
        return LINDENSCOOP_OUT_OF_RANGE;
    const bool minus = s[24] == '-', south = s[48] == 'S', west = s[58] == 'W';
    if (!is_weekday_of(weekday, d) || (s[38] == 'L') != (t.second == 60) || (minus && offset == 0) || (south && latitude == 0)
        || (west && longitude == 0))
        return LINDENSCOOP_DISAGREEMENT;

    *r = record_of(d, t);
    store_erlangen_flags(s, r);
    r->offset = LINDENSCOOP_PRESENT;
    r->offset_negative = minus;
    r->offset_minutes = offset;
    r->position = LINDENSCOOP_DEGREES;
    r->south = south;
    r->latitude_units = latitude;
    r->west = west;
    r->longitude_units = longitude;
    r->altitude_metres = number(s + 60, 4);
    return LINDENSCOOP_OK;
}

/* >900WD:yy-mm-dd hh.mm;ss.fff:cc<CR> */
static uint32_t read_spa(const uint8_t *s, lindenscoop_record *r)
{
    const uint32_t high = hex_value(s[29]), low = hex_value(s[30]);
    if (!(IS_TEXT(s, ">900WD:") && are_three(s + 7, '-') && s[15] == ' ' && are_digits(s + 16, 2) && s[18] == '.' && are_digits(s + 19, 2)
          && s[21] == ';' && are_digits(s + 22, 2) && s[24] == '.' && are_digits(s + 25, 3) && s[28] == ':' && high < 16 && low < 16
          && s[31] == '\r'))
        return LINDENSCOOP_WRONG_BYTE;

    if (plain_spa_sum(s) != 16 * high + low)
        return LINDENSCOOP_WRONG_CHECKSUM;

    const date d = date_at(s, 7, 10, 13);
    const daytime t = time_at(s, 16, 19, 22);
    if (!(is_time(t) && is_date(d)))
        return LINDENSCOOP_OUT_OF_RANGE;

    *r = record_of(d, t);
    r->fraction = LINDENSCOOP_THOUSANDTHS;
    r->fraction_units = number(s + 25, 3);
    return LINDENSCOOP_OK;
}

/* XGUyymmddhhmmss<CR> */
static uint32_t read_racal(const uint8_t *s, lindenscoop_record *r)
{
    if (!(IS_TEXT(s, "XGU") && are_digits(s + 3, 12) && s[15] == '\r'))
        return LINDENSCOOP_WRONG_BYTE;

    const date d = date_at(s, 3, 5, 7);
    const daytime t = time_at(s, 9, 11, 13);
    if (!(is_time(t) && is_date(d)))
        return LINDENSCOOP_OUT_OF_RANGE;

    *r = record_of(d, t);
    return LINDENSCOOP_OK;
}

/* <SOH>ddd:hh:mm:ssq<CR><LF> */
static uint32_t read_sysplex(const uint8_t *s, lindenscoop_record *r)
{
    if (!(s[0] == SOH && are_digits(s + 1, 3) && s[4] == ':' && are_three(s + 5, ':') && is_either(s[13], ' ', '?') && IS_TEXT(s + 14, "\r\n")))
        return LINDENSCOOP_WRONG_BYTE;

    const daytime t = time_at(s, 5, 8, 11);
    const uint32_t day = number(s + 1, 3);
    if (!(is_time(t) && 1 <= day && day <= 366))
        return LINDENSCOOP_OUT_OF_RANGE;

    *r = (lindenscoop_record){
        .hour = t.hour, .minute = t.minute, .second = t.second,
        .date = LINDENSCOOP_DAY_OF_YEAR, .day_of_year = day, .sync = yes_if(s[13] == ' '),
    };
    return LINDENSCOOP_OK;
}

/* T:yy:mm:dd:ww:hh:mm:ss<CR><LF> */
static uint32_t read_computime(const uint8_t *s, lindenscoop_record *r)
{
    if (!(IS_TEXT(s, "T:") && are_three(s + 2, ':') && s[10] == ':' && are_digits(s + 11, 2) && s[13] == ':' && are_three(s + 14, ':')
          && IS_TEXT(s + 22, "\r\n")))
        return LINDENSCOOP_WRONG_BYTE;

    const date d = date_at(s, 2, 5, 8);
    const daytime t = time_at(s, 14, 17, 20);
    const uint32_t weekday = number(s + 11, 2);
    if (!(is_time(t) && is_date(d) && is_weekday(weekday)))
        return LINDENSCOOP_OUT_OF_RANGE;
    if (!is_weekday_of(weekday, d))
        return LINDENSCOOP_DISAGREEMENT;

    *r = record_of(d, t);
    return LINDENSCOOP_OK;
}

/* The words of document 004, filled up to four letters; the German words of the other manuals are none. */
static inline bool is_zone(const uint8_t *s)
{
    return IS_TEXT(s, "UTC ") || IS_TEXT(s, "CET ") || IS_TEXT(s, "CEST");
}

/* <STX>dd.mm.yy/w/hh:mm:ssxxxxuv<CR><LF><ETX> */
static uint32_t read_sat(const uint8_t *s, lindenscoop_record *r)
{
    if (!(s[0] == STX && are_three(s + 1, '.') && s[9] == '/' && is_digit(s[10]) && s[11] == '/' && are_three(s + 12, ':')
          && is_zone(s + 20) && is_either(s[24], '#', ' ') && is_either(s[25], '!', ' ') && IS_TEXT(s + 26, "\r\n\3")))
        return LINDENSCOOP_WRONG_BYTE;

    const date d = date_at(s, 7, 4, 1);
    const daytime t = time_at(s, 12, 15, 18);
    const uint32_t weekday = number(s + 10, 1);
    if (!(is_time(t) && is_date(d) && is_weekday(weekday)))
        return LINDENSCOOP_OUT_OF_RANGE;
    if (!is_weekday_of(weekday, d))
        return LINDENSCOOP_DISAGREEMENT;

    /* The words differ from each other in their third letter. */
    *r = record_of(d, t);
    r->sync = yes_if(s[24] == ' ');
    r->utc = yes_if(s[22] == 'C');
    r->summer = yes_if(s[22] == 'S');
    r->change = yes_if(s[25] == '!');
    return LINDENSCOOP_OK;
}

/* Degrees and minutes, as bbbb.bb,n: digits of a width, leading zeros among them, a point, two digits, a comma and one of two letters. */
static inline bool is_angle(const uint8_t *s, int width, uint8_t one, uint8_t other)
{
    return are_digits(s, width) && s[width] == '.' && are_digits(s + width + 1, 2) && s[width + 3] == ','
           && is_either(s[width + 4], one, other);
}

/* $GPRMC,hhmmss.ss,A,bbbb.bb,n,lllll.ll,e,0.0,0.0,ddmmyy,0.0,E*hh<CR><LF> */
static uint32_t read_rmc(const uint8_t *s, lindenscoop_record *r)
{
    const uint32_t high = hex_value(s[61]), low = hex_value(s[62]);
    if (!(IS_TEXT(s, "$GPRMC,") && are_digits(s + 7, 6) && s[13] == '.' && are_digits(s + 14, 2) && s[16] == ','
          && is_either(s[17], 'A', 'V') && s[18] == ',' && is_angle(s + 19, 4, 'N', 'S') && s[28] == ',' && is_angle(s + 29, 5, 'E', 'W')
          && IS_TEXT(s + 39, ",0.0,0.0,") && are_digits(s + 48, 6) && IS_TEXT(s + 54, ",0.0,E*") && high < 16 && low < 16
          && IS_TEXT(s + 63, "\r\n")))
        return LINDENSCOOP_WRONG_BYTE;

    if (plain_rmc_sum(s) != 16 * high + low)
        return LINDENSCOOP_WRONG_CHECKSUM;

    const date d = date_at(s, 52, 50, 48);
    const daytime t = time_at(s, 7, 9, 11);
    const uint32_t latitude_minutes = number(s + 21, 2), longitude_minutes = number(s + 32, 2);
    const uint32_t latitude = 6000 * number(s + 19, 2) + 100 * latitude_minutes + number(s + 24, 2);
    const uint32_t longitude = 6000 * number(s + 29, 3) + 100 * longitude_minutes + number(s + 35, 2);
    if (!(is_time(t) && is_date(d) && latitude_minutes <= 59 && latitude <= 540000 && longitude_minutes <= 59 && longitude <= 1080000))
        return LINDENSCOOP_OUT_OF_RANGE;
    const bool south = s[27] == 'S', west = s[38] == 'W';
    if ((south && latitude == 0) || (west && longitude == 0))
        return LINDENSCOOP_DISAGREEMENT;

    *r = record_of(d, t);
    r->fraction = LINDENSCOOP_HUNDREDTHS;
    r->fraction_units = number(s + 14, 2);
    r->sync = yes_if(s[17] == 'A');
    r->position = LINDENSCOOP_MINUTES;
    r->south = south;
    r->latitude_units = latitude;
    r->west = west;
    r->longitude_units = longitude;
    return LINDENSCOOP_OK;
}

uint32_t plain_read_string(uint32_t form, const uint8_t *s, lindenscoop_record *record)
{
    switch (form) {
    case LINDENSCOOP_STANDARD: return read_standard(s, record);
    case LINDENSCOOP_CAPTURE: return read_capture(s, record);
    case LINDENSCOOP_ERLANGEN: return read_erlangen(s, record);
    case LINDENSCOOP_SPA: return read_spa(s, record);
    case LINDENSCOOP_RACAL: return read_racal(s, record);
    case LINDENSCOOP_SYSPLEX: return read_sysplex(s, record);
    case LINDENSCOOP_COMPUTIME: return read_computime(s, record);
    case LINDENSCOOP_SAT: return read_sat(s, record);
    case LINDENSCOOP_RMC: return read_rmc(s, record);
    default: return LINDENSCOOP_UNKNOWN_FORM;
    }
}

uint32_t plain_read(uint32_t form, const uint8_t *input, size_t length, lindenscoop_record *record)
{
    uint32_t answer = LINDENSCOOP_UNKNOWN_FORM;
    if (plain_is_serial(form))
        answer = length == plain_shapes[form].length ? plain_read_string(form, input, record) : LINDENSCOOP_WRONG_LENGTH;
    if (answer != LINDENSCOOP_OK)
        *record = (lindenscoop_record){0};
    return answer;
}
