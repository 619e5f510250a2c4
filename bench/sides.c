/* The sides that are compared and timed: the archive, the plain C of the targets, and the quick C. */
#include "sides.h"
#include "machine.h"
#include "quick.h"
#include "rissobarm.h"

runner *const run_of[ALL_SIDES] = { rissobarm_run, machine_run, quick_run };
supplier *const supply_of[ALL_SIDES] = { rissobarm_supply, machine_supply, quick_supply };
valuer *const values_of[ALL_SIDES] = { rissobarm_values, machine_values, quick_values };
