/* Eclipses, occultations, risings and settings of a place by the Swiss Ephemeris, beside which python/finder/sky is put.
 *
 *     cc -O2 -o swiss bench/swiss.c -lswe -lm
 *     swiss FOLDER FILE DELTA_T <requests
 *
 * FILE in FOLDER is a binary DE file, as `asc2eph` of Debian's pluto-jpl-eph makes it of JPL's text, so that both read
 * the same coefficients; DELTA_T is TT less UT1 in seconds for all times. Stars are those of FOLDER/sefstars.txt. A
 * request is a line; times are Julian dates of UT1, degrees are north and east positive, and heights are metres:
 *
 *     solar JD LONGITUDE LATITUDE METRES              the next eclipse of the Sun that is seen there
 *     lunar JD LONGITUDE LATITUDE METRES              the next eclipse of the Moon that is seen there
 *     occult JD LONGITUDE LATITUDE METRES BODY        the next occultation of a planet or a star that is seen there
 *     rise JD LONGITUDE LATITUDE METRES BODY FLAGS    the next rising or setting, by the numbers of swephexp.h
 *
 * The answer is a line: the flags that the library returns, and numbers: the times as it returns them (0 where there is
 * none), and the first three attributes (magnitudes and obscuration). An error is a line that starts with `error`.
 */
#include <stdio.h>
#include <stdlib.h>
#include <string.h>
#include <swephexp.h>

enum { TIMES = 10, ATTRIBUTES = 20, PRINTED_TIMES = 8, PRINTED_ATTRIBUTES = 3, LINE = 512 };

/* Pressure in hPa and temperature in degrees Celsius of risings; the library turns them into refraction. */
static const double PRESSURE = 1013.25, TEMPERATURE = 10.0;

static void print_answer(int flags, const double *times, const double *attributes, const char *error)
{
    if (flags < 0) {
        printf("error %s\n", error);
        return;
    }
    printf("%d", flags);
    for (int i = 0; i < PRINTED_TIMES; i++)
        printf(" %.10f", times[i]);
    for (int i = 0; i < PRINTED_ATTRIBUTES; i++)
        printf(" %.8f", attributes[i]);
    putchar('\n');
}

/* The library's number of a body, or -1 for a star. */
static int body_of(const char *name)
{
    static const struct { const char *name; int number; } BODIES[] = {
        {"sun", SE_SUN}, {"moon", SE_MOON}, {"mercury", SE_MERCURY}, {"venus", SE_VENUS}, {"mars", SE_MARS},
        {"jupiter", SE_JUPITER}, {"saturn", SE_SATURN}, {"uranus", SE_URANUS}, {"neptune", SE_NEPTUNE},
    };
    for (size_t i = 0; i < sizeof BODIES / sizeof *BODIES; i++)
        if (strcmp(name, BODIES[i].name) == 0)
            return BODIES[i].number;
    return -1;
}

static void answer(const char *line)
{
    char kind[16], body[64] = "", error[AS_MAXCH] = "";
    double date, place[3], times[TIMES] = {0}, attributes[ATTRIBUTES] = {0};
    int rise = 0, flags = -1;
    int words = sscanf(line, "%15s %lf %lf %lf %lf %63s %d", kind, &date, &place[0], &place[1], &place[2], body, &rise);
    if (words < 5) {
        printf("error a request has a kind, a date and a place\n");
        return;
    }
    int number = body_of(body);
    if (strcmp(kind, "solar") == 0)
        flags = swe_sol_eclipse_when_loc(date, SEFLG_JPLEPH, place, times, attributes, 0, error);
    else if (strcmp(kind, "lunar") == 0)
        flags = swe_lun_eclipse_when_loc(date, SEFLG_JPLEPH, place, times, attributes, 0, error);
    else if (strcmp(kind, "occult") == 0 && words >= 6)
        flags = swe_lun_occult_when_loc(date, number, number < 0 ? body : NULL, SEFLG_JPLEPH, place, times, attributes, 0, error);
    else if (strcmp(kind, "rise") == 0 && words == 7)
        flags = swe_rise_trans(date, number, number < 0 ? body : NULL, SEFLG_JPLEPH, rise, place, PRESSURE, TEMPERATURE, times, error);
    else
        snprintf(error, sizeof error, "no request: %s", kind);
    print_answer(flags, times, attributes, error);
}

int main(int count, char **words)
{
    if (count != 4) {
        fprintf(stderr, "usage: swiss FOLDER FILE DELTA_T <requests\n");
        return 2;
    }
    char line[LINE];
    swe_set_ephe_path(words[1]);
    swe_set_jpl_file(words[2]);
    swe_set_delta_t_userdef(atof(words[3]) / 86400.0);
    while (fgets(line, sizeof line, stdin))
        answer(line);
    swe_close();
    return 0;
}
