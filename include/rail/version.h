/* The version of this header and its library: CHANGELOG.md tells what each one changed. Included by rail.h. */
#ifndef RAIL_VERSION_H
#define RAIL_VERSION_H

#define RAIL_VERSION_MAJOR 0 /* while it is 0, a greater MINOR may break programs */
#define RAIL_VERSION_MINOR 2
#define RAIL_VERSION_PATCH 0

/* For #if: RAIL_VERSION_NUMBER >= RAIL_VERSION_OF(0, 2, 0), since which pictures are kept in a store */
#define RAIL_VERSION_OF(major, minor, patch) ((major) * 1000000 + (minor) * 1000 + (patch))
#define RAIL_VERSION_NUMBER RAIL_VERSION_OF(RAIL_VERSION_MAJOR, RAIL_VERSION_MINOR, RAIL_VERSION_PATCH)

/* "0.2.0" */
#define RAIL_VERSION RAIL_VERSION_TEXT(RAIL_VERSION_MAJOR, RAIL_VERSION_MINOR, RAIL_VERSION_PATCH)
#define RAIL_VERSION_TEXT(major, minor, patch) RAIL_VERSION_JOINED(major, minor, patch)
#define RAIL_VERSION_JOINED(major, minor, patch) #major "." #minor "." #patch

static inline const char *rail_version(void) { return RAIL_VERSION; }

#endif
