// Finds one unit, ranges it, and prints its equalization delay, 211040: examples/c/find_one_unit.c from Go, by cgo.
// tools/embed sets CGO_CFLAGS and CGO_LDFLAGS, and runs it.
//
// A chassis is used on the thread that opened it, and Go moves goroutines from thread to thread. So the goroutine that
// has a chassis locks its thread before it opens it, and ends that when it has closed it.
package main

// #include "wagpisud.h"
import "C"

import (
	"encoding/hex"
	"fmt"
	"log"
	"runtime"
	"unsafe"
)

var chassis C.wp_chassis
var answer C.wp_answer

func must(status C.uint32_t) {
	if status != C.WP_DONE {
		log.Fatalf("find_one_unit: status %d", status)
	}
}

func frames(count int) {
	for i := 0; i < count; i++ {
		must(C.wp_frame(&chassis, 0, &answer))
	}
}

func burst(digits string) C.uint8_t {
	octets, _ := hex.DecodeString(digits)
	must(C.wp_burst(&chassis, 0, 100000, (*C.uint8_t)(unsafe.Pointer(&octets[0])), &answer))
	return answer.reply
}

func main() {
	runtime.LockOSThread()
	defer runtime.UnlockOSThread()
	settings := C.wp_settings{licences: 1, journal_limit: 4096}
	serial := C.wp_serial{octets: [8]C.uint8_t{'A', 'B', 'C', 'D', 0, 0, 0, 1}}
	port := C.wp_port{teqd: 311040, admitted: 1, alloc_last: 4095, max_units: 254, cycles: 1}
	must(C.wp_open(&chassis, &settings, &port, 1, &serial, 1))
	must(C.wp_command(&chassis, 0, C.WP_COMMAND_SEARCH, &serial, 0, &answer))
	frames(5)
	if burst("ff01414243440000000100002c") != C.WP_FOUND {
		log.Fatal("find_one_unit: no unit was found")
	}
	frames(4)
	if burst("0001414243440000000100006b") != C.WP_RANGED {
		log.Fatal("find_one_unit: the unit was not ranged")
	}
	fmt.Println(answer.eqd)
	must(C.wp_close(&chassis))
}
