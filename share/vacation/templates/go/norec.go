// NOrec in Go over the C interface (include/vacation_tm.h):
//
//	benchmark/build built --interface
//	go build -buildmode=c-shared -o norec_go.so share/vacation/templates/go/norec.go
//	./vacation tasks --tasks 1000 --items 8 > work
//	built/peer ./norec_go.so --attempts --jitter 1 < work > attempts && ./judge attempts < attempts
//	built/peer ./norec_go.so --history --jitter 1 < work > log && ./judge history --given-order --tasks work < log
//
// (`&&`, because a run that hung or crashed can end as `legal`: vacation_tm.h.) A call from C to Go
// takes some hundred nanoseconds: enough to judge, not to measure. With MISTAKE=1 in the environment an
// attempt that finds the sequence changed does not compare what it has read: the judge shall find that.
package main

// #include <stdint.h>
// #include <stddef.h>
import "C"

import (
	"os"
	"runtime"
	"sync/atomic"
	"unsafe"
)

type access struct {
	addr  uint32
	value uint64
}

// The memory: its words in place, and a sequence lock, odd while a writer stores.
var (
	words     []uint64
	sequence  uint64
	isMistake = os.Getenv("MISTAKE") == "1"
)

// A client, and its attempt.
type client struct {
	snapshot, place uint64
	reads, writes   []access
}

const mostClients = 65

// C may not keep a pointer of Go: it gets a client's number, plus 1.
var clients [mostClients]*client

func evenSequence() uint64 {
	for {
		now := atomic.LoadUint64(&sequence)
		if now%2 == 0 {
			return now
		}
		runtime.Gosched()
	}
}

// Moves the snapshot to a moment at which all that was read is still there, if there is one.
func (own *client) validate() bool {
	for {
		now := evenSequence()
		for _, read := range own.reads {
			if !isMistake && atomic.LoadUint64(&words[read.addr]) != read.value {
				return false
			}
		}
		if atomic.LoadUint64(&sequence) == now {
			own.snapshot, own.place = now, now+1
			return true
		}
	}
}

//export tm_open
func tm_open(first *C.uint64_t, count C.size_t) unsafe.Pointer {
	words = unsafe.Slice((*uint64)(unsafe.Pointer(first)), int(count))
	return nil
}

//export tm_client
func tm_client(_ unsafe.Pointer, number C.uint) C.uintptr_t {
	clients[number] = &client{}
	return C.uintptr_t(number) + 1
}

//export tm_begin
func tm_begin(number C.uintptr_t, _ unsafe.Pointer) {
	own := clients[number-1]
	own.reads, own.writes = own.reads[:0], own.writes[:0]
	own.snapshot = evenSequence()
	own.place = own.snapshot + 1
}

//export tm_read
func tm_read(number C.uintptr_t, addr C.uint32_t, value *C.uint64_t) C.int {
	own := clients[number-1]
	for i := len(own.writes) - 1; i >= 0; i-- {
		if own.writes[i].addr == uint32(addr) {
			*value = C.uint64_t(own.writes[i].value)
			return 0
		}
	}
	found := atomic.LoadUint64(&words[addr])
	for atomic.LoadUint64(&sequence) != own.snapshot {
		if !own.validate() {
			return 1
		}
		found = atomic.LoadUint64(&words[addr])
	}
	own.reads = append(own.reads, access{uint32(addr), found})
	*value = C.uint64_t(found)
	return 0
}

//export tm_write
func tm_write(number C.uintptr_t, addr C.uint32_t, value C.uint64_t) C.int {
	own := clients[number-1]
	own.writes = append(own.writes, access{uint32(addr), uint64(value)})
	return 0
}

//export tm_commit
func tm_commit(number C.uintptr_t) C.int {
	own := clients[number-1]
	if len(own.writes) == 0 {
		return 0
	}
	for !atomic.CompareAndSwapUint64(&sequence, own.snapshot, own.snapshot+1) {
		if !own.validate() {
			return 1
		}
	}
	for _, written := range own.writes {
		atomic.StoreUint64(&words[written.addr], written.value)
	}
	own.place = own.snapshot + 2
	atomic.StoreUint64(&sequence, own.place)
	return 0
}

//export tm_place
func tm_place(number C.uintptr_t) C.uint64_t {
	return C.uint64_t(clients[number-1].place)
}

func main() {}
