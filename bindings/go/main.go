// Says whether standard input holds a certified chain.
//
// usage: go run . STAKE,STAKE,.. < CHAIN
//
// The library is found by pkg-config. The seals are the keyed ones of the
// program `committee`.
package main

// #cgo pkg-config: kothaysu
// #include <kothaysu.h>
import "C"

import (
	"fmt"
	"io"
	"os"
	"strconv"
	"strings"
)

// stakesOf reads numbers that commas join.
func stakesOf(text string) ([]C.uint32_t, error) {
	var stakes []C.uint32_t
	for _, word := range strings.Split(text, ",") {
		stake, err := strconv.ParseUint(word, 10, 32)
		if err != nil {
			return nil, err
		}
		stakes = append(stakes, C.uint32_t(stake))
	}
	return stakes, nil
}

// first is the address of a list's first item; an empty list has one too.
func first[T any](items []T) *T {
	if len(items) == 0 {
		return new(T)
	}
	return &items[0]
}

func main() {
	if len(os.Args) != 2 {
		fmt.Fprintln(os.Stderr, "usage: go run . STAKE,STAKE,.. < CHAIN")
		os.Exit(2)
	}
	stakes, err := stakesOf(os.Args[1])
	chain, failed := io.ReadAll(os.Stdin)
	if err != nil || failed != nil {
		fmt.Fprintln(os.Stderr, "the stakes or the chain cannot be read")
		os.Exit(2)
	}
	var secret C.kothaysu_bytes32
	for i := range secret.bytes {
		secret.bytes[i] = 0x5a
	}
	var answer C.kothaysu_answer
	bytes := (*C.uint8_t)(first(chain))
	code := C.kothaysu_check_chain_keyed(first(stakes), C.size_t(len(stakes)), bytes, C.size_t(len(chain)), &secret, &answer)
	if code != C.KOTHAYSU_OK {
		fmt.Printf("code %d cause %d at %d\n", code, answer.cause, answer.first)
		os.Exit(8)
	}
	fmt.Printf("certified %d\n", answer.first)
}
