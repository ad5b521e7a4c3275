/* A file as log messages, in packages of 1024 bytes, as viewers put it together again. Each function answers 0, or less where it fails. */
#ifndef DLT_FILETRANSFER_H
#define DLT_FILETRANSFER_H

#include "dlt.h"

#ifdef __cplusplus
extern "C" {
#endif

/* The whole file, with so many milliseconds behind each package; it is removed behind that where the flag says so. */
int dlt_user_log_file_complete(DltContext *context, const char *path, int removes, int milliseconds);

/* Its parts: what is said of it, its head (under another name), one package from 1 on, or all where the number is INT_MAX, and its end. */
int dlt_user_log_file_infoAbout(DltContext *context, const char *path);
int dlt_user_log_file_header(DltContext *context, const char *path);
int dlt_user_log_file_header_alias(DltContext *context, const char *path, const char *name);
int dlt_user_log_file_data(DltContext *context, const char *path, int package, int milliseconds);
int dlt_user_log_file_end(DltContext *context, const char *path, int removes);

/* How many packages it has. */
int dlt_user_log_file_packagesCount(DltContext *context, const char *path);

#ifdef __cplusplus
}
#endif

#endif
