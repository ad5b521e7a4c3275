/* The interface that these headers describe: that of libdlt 2.18.8. */
#ifndef DLT_VERSION_H
#define DLT_VERSION_H

#define _DLT_PACKAGE_MAJOR_VERSION "2"
#define _DLT_PACKAGE_MINOR_VERSION "18"
#define _DLT_PACKAGE_PATCH_LEVEL "8"
#define _DLT_PACKAGE_VERSION "2.18.8"
#define _DLT_PACKAGE_VERSION_STATE "STABLE"
#define _DLT_PACKAGE_REVISION ""

#endif
