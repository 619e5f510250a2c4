/* The commands, each with the status that the tool ends with. */
#ifndef TOOL_COMMANDS_H
#define TOOL_COMMANDS_H

#include "options.h"
#include "say.h"

enum status command_check(const struct options *options);
enum status command_compile(const struct options *options);
enum status command_print(const struct options *options);
enum status command_run(const struct options *options);
enum status command_resume(const struct options *options);
enum status command_replay(const struct options *options);
enum status command_show(const struct options *options);
enum status command_why(const struct options *options);

#endif
