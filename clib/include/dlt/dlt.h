/* All that a program includes which logs. */
#ifndef DLT_H
#define DLT_H

#include "dlt_common.h"
#include "dlt_user.h"

#endif
