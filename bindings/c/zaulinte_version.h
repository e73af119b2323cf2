/* zaulinte_version.h: the version of Zaulinte. CHANGELOG.md, the Rust crate, pkg-config and CMake have the same. If
 * the library was built for a chosen port, an installed copy of this header names it. */
#ifndef ZAULINTE_VERSION_H
#define ZAULINTE_VERSION_H
#define ZAULINTE_VERSION_MAJOR 0
#define ZAULINTE_VERSION_MINOR 6
#define ZAULINTE_VERSION_PATCH 0
#define ZAULINTE_DOTTED(major, minor, patch) ZAULINTE_DOTTED_TEXT(major, minor, patch)
#define ZAULINTE_DOTTED_TEXT(major, minor, patch) #major "." #minor "." #patch
/* The version as text, like "1.2.3". */
#define ZAULINTE_VERSION ZAULINTE_DOTTED(ZAULINTE_VERSION_MAJOR, ZAULINTE_VERSION_MINOR, ZAULINTE_VERSION_PATCH)
#endif
