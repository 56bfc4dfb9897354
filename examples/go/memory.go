//go:build unix

package main

/*
#include <signal.h>
#include <stdlib.h>
#include <unistd.h>

enum { NO_ANSWER = 4 };

static void end(int number)
{
	_exit(NO_ANSWER);
}

__attribute__((constructor)) static void end_with_no_answer(void)
{
	struct sigaction action = {.sa_handler = end, .sa_flags = SA_ONSTACK};
	sigaction(SIGABRT, &action, NULL);
}

// What Go calls when C refuses it memory; weak, since a static C library has one, too.
__attribute__((weak)) void abort(void)
{
	_exit(NO_ANSWER);
}
*/
import "C"

import "runtime/debug"

// Go ends a program that is refused memory, or panics, with the status 2, which is that of an impossible log. Here it raises
// SIGABRT instead, and that ends the program with 4.
func init() {
	debug.SetTraceback("crash")
}
