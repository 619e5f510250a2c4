/* The commands, one function each. */
#ifndef INDEX_COMMANDS_H
#define INDEX_COMMANDS_H

#include "options.h"
#include "say.h"

enum status command_init(const struct options *options);
enum status command_check(const struct options *options);
enum status command_serve(const struct options *options);
enum status command_work(const struct options *options);
enum status command_edit(const struct options *options);
enum status command_answer(const struct options *options);
enum status command_jobs(const struct options *options);
enum status command_status(const struct options *options);
enum status command_why(const struct options *options);
enum status command_trouble(const struct options *options);
enum status command_retry(const struct options *options);
enum status command_replan(const struct options *options);
enum status command_verify(const struct options *options);
enum status command_rebuild(const struct options *options);
enum status command_search(const struct options *options);
enum status command_age(const struct options *options);

#endif
