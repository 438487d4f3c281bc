/* How near the truth a cut room is: light at the points of a project's checks, without patches.
 *
 *     cc -O2 -o tracer examples/truth/tracer.c -lm && ./tracer examples/office/office.toml 100000
 *
 * The first word is a project of `lux run`, the second how many paths start at each point (100000 without it). The
 * room's counts and the solver's table are passed over, and regions are where they are, whatever the counts. A luminaire's file must be IES LM-63 with TILT=NONE and one
 * plane. Of TOML it reads what the examples are written in: a key and its value on a line, plain decimal numbers, no
 * quoted or dotted keys, and no blanks within the brackets of a table's head. It judges nothing: `lux run` says whether
 * a project is right.
 *
 * At a point, what the luminaires send is added up exactly, and what the surfaces reflect is sampled. A path leaves the
 * point upwards, by the cosine; where it hits a surface, it takes what that place gets from the luminaires, dimmed by
 * each reflectance so far, and goes on from there by the cosine. Surfaces are diffuse, and luminaires are points. No
 * light is lost: where little of a path is left, it ends by a coin's toss or counts double.
 *
 * For each check it prints the average (with the maintenance factor) and the uniformity, each with a standard error,
 * then for each point the lux, of them those that come directly, and the standard error. The true values of a room with
 * such surfaces are within three standard errors nearly always. The least of many values that are known roughly is too
 * small on the average, and so the uniformity is too: take enough paths for the errors of the points to be small beside
 * what differs between them.
 */
#include <math.h>
#include <stdint.h>
#include <stdio.h>
#include <stdlib.h>
#include <string.h>

enum { LUMINAIRES = 256, CHECKS = 32, REGIONS = 16, ANGLES = 721, NAME = 256 };

static const double PI = 3.14159265358979323846;

struct web {
    int angles;
    double gamma[ANGLES];   /* degrees, rising */
    double candela[ANGLES]; /* with the file's factors and the luminaire's level */
};

struct luminaire {
    char file[NAME];
    double place[3]; /* metres */
    double level;    /* 0 to 1 */
    struct web web;
};

struct check {
    char name[NAME];
    double x[2], y[2], z; /* metres */
    int points[2];
    double maintenance; /* 0 to 1 */
};

struct region {
    int surface;
    double u[2], v[2];  /* metres */
    double reflectance; /* 0 to 1 */
};

/* The surfaces of a room in their order, in pairs: that at 0 of an axis and that at its end. */
enum { FLOOR, CEILING, WALLS, SURFACES = 6 };

static double size[3];               /* metres */
static double reflectance[SURFACES]; /* 0 to 1 */
static struct luminaire luminaires[LUMINAIRES];
static struct check checks[CHECKS];
static struct region regions[REGIONS];
static int luminaire_count, check_count, region_count;

static void refuse(const char *what, const char *name)
{
    fprintf(stderr, "tracer: %s: %s\n", what, name);
    exit(1);
}

/* Random numbers: xorshift with a multiplication behind it; the same each time. */
static uint64_t state = 88172645463325252u;

static double chance(void)
{
    state ^= state >> 12;
    state ^= state << 25;
    state ^= state >> 27;
    return (double)((state * 2685821657736338717u) >> 11) / 9007199254740992.0;
}

/* Candela at a gamma in degrees, in proportion between two angles of the web; none outside it. */
static double intensity(const struct web *web, double gamma)
{
    int low = 0, high = web->angles - 1;

    if (gamma < web->gamma[0] || gamma > web->gamma[high])
        return 0;
    while (high - low > 1) {
        int middle = (low + high) / 2;
        if (web->gamma[middle] <= gamma)
            low = middle;
        else
            high = middle;
    }
    double part = (gamma - web->gamma[low]) / (web->gamma[high] - web->gamma[low]);
    return web->candela[low] + part * (web->candela[high] - web->candela[low]);
}

/* Lux from all luminaires at a place whose normal goes along an axis, in the direction of a sign. */
static double direct(const double place[3], int axis, double sign)
{
    double sum = 0;

    for (int i = 0; i < luminaire_count; i++) {
        const struct luminaire *from = &luminaires[i];
        double way[3], square = 0;
        for (int k = 0; k < 3; k++) {
            way[k] = from->place[k] - place[k];
            square += way[k] * way[k];
        }
        double ahead = way[axis] * sign;
        if (ahead <= 0)
            continue;
        double distance = sqrt(square);
        double gamma = atan2(hypot(way[0], way[1]), way[2]) * 180 / PI;
        sum += intensity(&from->web, gamma) * ahead / (square * distance);
    }
    return sum;
}

/* A direction by the cosine about an axis, in the direction of a sign. */
static void scatter(double way[3], int axis, double sign)
{
    double square = chance(), turn = 2 * PI * chance(), radius = sqrt(square);

    way[axis] = sign * sqrt(1 - square);
    way[(axis + 1) % 3] = radius * cos(turn);
    way[(axis + 2) % 3] = radius * sin(turn);
}

/* Moves a place along a direction to the surface that it hits, whose axis it gives back, and its normal's sign. */
static int hit(double place[3], const double way[3], double *sign)
{
    int axis = 0;
    double least = HUGE_VAL;

    for (int k = 0; k < 3; k++) {
        double length = HUGE_VAL;
        if (way[k] > 0)
            length = (size[k] - place[k]) / way[k];
        else if (way[k] < 0)
            length = -place[k] / way[k];
        if (length < least) {
            least = length;
            axis = k;
        }
    }
    for (int k = 0; k < 3; k++)
        place[k] = fmin(fmax(place[k] + least * way[k], 0), size[k]);
    place[axis] = way[axis] > 0 ? size[axis] : 0;
    *sign = way[axis] > 0 ? -1 : 1;
    return axis;
}

/* The reflectance of a place on the surface whose normal goes along an axis, in the direction of a sign: that of the
 * last region around it, and else the surface's. */
static double reflectance_at(const double place[3], int axis, double sign)
{
    int first = axis == 2 ? FLOOR : axis == 0 ? WALLS : WALLS + 2, surface = sign > 0 ? first : first + 1;
    double u = place[axis == 0 ? 1 : 0], v = place[axis == 2 ? 1 : 2];

    for (int i = region_count - 1; i >= 0; i--) {
        const struct region *of = &regions[i];
        if (of->surface == surface && of->u[0] <= u && u < of->u[1] && of->v[0] <= v && v < of->v[1])
            return of->reflectance;
    }
    return reflectance[surface];
}

/* Lux that one path from a point brings by way of the surfaces. */
static double reflected(const double point[3])
{
    double place[3] = {point[0], point[1], point[2]}, way[3], sign = 1, left = 1, sum = 0;
    int axis = 2;

    for (;;) {
        scatter(way, axis, sign);
        axis = hit(place, way, &sign);
        left *= reflectance_at(place, axis, sign);
        if (left == 0)
            return sum;
        sum += left * direct(place, axis, sign);
        if (left < 0.1) {
            if (chance() < 0.5)
                return sum;
            left *= 2;
        }
    }
}

static double number(const char *text)
{
    return strtod(text, NULL);
}

static void pair(const char *text, double into[2])
{
    if (sscanf(text, " [ %lf , %lf", &into[0], &into[1]) != 2)
        refuse("not two numbers", text);
}

/* The walls' reflectances: a number for all four, or a list of four. */
static void walls(const char *text, double into[4])
{
    double one = number(text) / 1000;

    for (int i = 0; i < 4; i++)
        into[i] = one;
    if (!strchr(text, '['))
        return;
    if (sscanf(text, " [ %lf , %lf , %lf , %lf", &into[0], &into[1], &into[2], &into[3]) != 4)
        refuse("not four numbers", text);
    for (int i = 0; i < 4; i++)
        into[i] /= 1000;
}

static void word(const char *text, char into[NAME])
{
    if (sscanf(text, " \"%255[^\"]", into) != 1)
        refuse("not a text in quotes", text);
}

static void read_project(const char *name)
{
    FILE *file = fopen(name, "r");
    char line[1024], table[64] = "", key[64];

    if (!file)
        refuse("missing", name);
    while (fgets(line, sizeof line, file)) {
        char *text = strchr(line, '=');
        if (sscanf(line, " [[%63[a-z]]]", table) == 1) {
            luminaire_count += !strcmp(table, "luminaire");
            check_count += !strcmp(table, "check");
            region_count += !strcmp(table, "region");
            if (luminaire_count > LUMINAIRES || check_count > CHECKS || region_count > REGIONS)
                refuse("too many tables", table);
            continue;
        }
        if (sscanf(line, " [%63[a-z]]", table) == 1 || !text || sscanf(line, " %63[a-z]", key) != 1)
            continue;
        text++;
        if (!strcmp(table, "room")) {
            if (!strcmp(key, "width")) size[0] = number(text) / 1000;
            if (!strcmp(key, "depth")) size[1] = number(text) / 1000;
            if (!strcmp(key, "height")) size[2] = number(text) / 1000;
            if (!strcmp(key, "floor")) reflectance[FLOOR] = number(text) / 1000;
            if (!strcmp(key, "ceiling")) reflectance[CEILING] = number(text) / 1000;
            if (!strcmp(key, "walls")) walls(text, &reflectance[WALLS]);
        } else if (!strcmp(table, "luminaire")) {
            struct luminaire *to = &luminaires[luminaire_count - 1];
            if (!strcmp(key, "file")) word(text, to->file);
            if (!strcmp(key, "x")) to->place[0] = number(text) / 1000;
            if (!strcmp(key, "y")) to->place[1] = number(text) / 1000;
            if (!strcmp(key, "z")) to->place[2] = number(text) / 1000;
            if (!strcmp(key, "level")) to->level = number(text) / 1000;
        } else if (!strcmp(table, "check")) {
            struct check *to = &checks[check_count - 1];
            double both[2];
            if (!strcmp(key, "name")) word(text, to->name);
            if (!strcmp(key, "x") || !strcmp(key, "y")) {
                pair(text, both);
                double *bounds = key[0] == 'x' ? to->x : to->y;
                bounds[0] = both[0] / 1000;
                bounds[1] = both[1] / 1000;
            }
            if (!strcmp(key, "z")) to->z = number(text) / 1000;
            if (!strcmp(key, "points")) {
                pair(text, both);
                to->points[0] = (int)both[0];
                to->points[1] = (int)both[1];
            }
            if (!strcmp(key, "maintenance")) to->maintenance = number(text) / 1000;
        } else if (!strcmp(table, "region")) {
            struct region *to = &regions[region_count - 1];
            double both[2];
            if (!strcmp(key, "surface")) to->surface = (int)number(text);
            if (!strcmp(key, "u") || !strcmp(key, "v")) {
                pair(text, both);
                double *bounds = key[0] == 'u' ? to->u : to->v;
                bounds[0] = both[0] / 1000;
                bounds[1] = both[1] / 1000;
            }
            if (!strcmp(key, "reflectance")) to->reflectance = number(text) / 1000;
        }
    }
    fclose(file);
}

static double next(FILE *file, const char *name)
{
    double value;

    if (fscanf(file, "%lf%*[ ,\r\n\t]", &value) != 1)
        refuse("too few numbers", name);
    return value;
}

static void read_web(struct luminaire *to)
{
    FILE *file = fopen(to->file, "r");
    char line[1024];
    double head[13];

    if (!file)
        refuse("missing", to->file);
    do {
        if (!fgets(line, sizeof line, file))
            refuse("no TILT=NONE", to->file);
    } while (strncmp(line, "TILT=NONE", 9));
    for (int i = 0; i < 13; i++)
        head[i] = next(file, to->file);
    if (head[3] < 2 || head[3] > ANGLES || head[4] != 1 || head[5] != 1)
        refuse("not one plane of type C", to->file);
    to->web.angles = (int)head[3];
    for (int i = 0; i < to->web.angles; i++)
        to->web.gamma[i] = next(file, to->file);
    next(file, to->file);
    for (int i = 0; i < to->web.angles; i++)
        to->web.candela[i] = next(file, to->file) * head[2] * head[10] * head[11] * to->level;
    fclose(file);
}

static void measure(const struct check *check, long paths)
{
    int count = check->points[0] * check->points[1], least = 0;
    double *lux = calloc(3 * (size_t)count, sizeof *lux), *straight = lux + count, *variance = straight + count;
    double mean = 0, spread = 0;

    if (count < 1 || !lux)
        refuse("no points", check->name);
    for (int i = 0; i < count; i++) {
        int column = i % check->points[0], row = i / check->points[0];
        double point[3] = {
            check->x[0] + (check->x[1] - check->x[0]) * (column + 0.5) / check->points[0],
            check->y[0] + (check->y[1] - check->y[0]) * (row + 0.5) / check->points[1],
            check->z,
        };
        double sum = 0, squares = 0;
        for (long k = 0; k < paths; k++) {
            double value = reflected(point);
            sum += value;
            squares += value * value;
        }
        straight[i] = direct(point, 2, 1);
        lux[i] = straight[i] + sum / paths;
        variance[i] = fmax(squares / paths - sum / paths * (sum / paths), 0) / (paths - 1);
        mean += lux[i] / count;
        spread += variance[i] / ((double)count * count);
        if (lux[i] < lux[least])
            least = i;
    }
    printf("check %s points %d maintenance %.3f\n", check->name, count, check->maintenance);
    printf("average %.3f error %.3f\n", mean * check->maintenance, sqrt(spread) * check->maintenance);
    printf("uniformity %.4f error %.4f\n", mean > 0 ? lux[least] / mean : 0,
           mean > 0 ? hypot(sqrt(variance[least]), lux[least] / mean * sqrt(spread)) / mean : 0);
    for (int i = 0; i < count; i++)
        printf("point %d lux %.3f direct %.3f error %.3f\n", i, lux[i], straight[i], sqrt(variance[i]));
    free(lux);
}

int main(int argc, char **argv)
{
    long paths = argc > 2 ? strtol(argv[2], NULL, 10) : 100000;

    if (argc < 2 || argc > 3 || paths < 2) {
        fprintf(stderr, "tracer: usage: tracer PROJECT [PATHS]\n");
        return 1;
    }
    read_project(argv[1]);
    for (int i = 0; i < luminaire_count; i++)
        read_web(&luminaires[i]);
    for (int i = 0; i < check_count; i++)
        measure(&checks[i], paths);
    return 0;
}
