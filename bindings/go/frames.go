package vicinity

// #include "vicinity.h"
import "C"

import (
	"errors"
	"fmt"
	"strconv"
)

// UID is the UID of a tag. Its top byte is E0.
type UID uint64

// ErrNotUID means that a text is no UID.
var ErrNotUID = errors.New("vicinity: a UID is 16 hex digits, of which the first two are E0")

// ParseUID reads sixteen hex digits, the most significant first.
func ParseUID(text string) (UID, error) {
	number, err := strconv.ParseUint(text, 16, 64)
	if err != nil || len(text) != 16 || number>>56 != 0xE0 {
		return 0, ErrNotUID
	}
	return UID(number), nil
}

func (uid UID) String() string {
	return fmt.Sprintf("%016X", uint64(uid))
}

// Mask is the UIDs whose Len low bits are Value. The zero Mask has all UIDs.
type Mask struct {
	Len   uint32
	Value uint64
}

// Holds reports whether a UID lies in the mask.
func (mask Mask) Holds(uid UID) bool {
	return mask.Len <= 64 && (uint64(uid)^mask.Value)<<(64-mask.Len) == 0
}

// String returns the mask as the program writes it, and as `vicinity spell` takes it.
func (mask Mask) String() string {
	if mask.Len == 0 {
		return "0 -"
	}
	return fmt.Sprintf("%d %0*X", mask.Len, 2*((mask.Len+7)/8), mask.Value)
}

// Request is a request that was read: an Inventory has Slots and a Mask, a Stay Quiet has a UID and no Slots.
type Request struct {
	Link  uint8
	Slots uint8
	Mask  Mask
	UID   UID
}

// Reply is a reply that was read.
type Reply struct {
	Flags uint8
	DSFID uint8
	UID   UID
}

// WriteInventory returns the frame of an Inventory request, CRC included. An error is a Refusal, here and below.
func WriteInventory(link, slots uint8, mask Mask) ([]byte, error) {
	var told C.struct_vicinity_frame
	C.vicinity_write_inventory(C.uint32_t(link), C.uint32_t(slots), C.uint32_t(mask.Len), C.uint64_t(mask.Value), &told)
	return frame(&told)
}

// WriteStayQuiet returns the frame of a Stay Quiet request, CRC included.
func WriteStayQuiet(link uint8, uid UID) ([]byte, error) {
	var told C.struct_vicinity_frame
	C.vicinity_write_stay_quiet(C.uint32_t(link), C.uint64_t(uid), &told)
	return frame(&told)
}

// WriteResponse returns the frame of a reply, CRC included.
func WriteResponse(flags, dsfid uint8, uid UID) ([]byte, error) {
	var told C.struct_vicinity_frame
	C.vicinity_write_response(C.uint32_t(flags), C.uint32_t(dsfid), C.uint64_t(uid), &told)
	return frame(&told)
}

// AddCRC returns at most 14 bytes followed by their CRC, for a chip that strips the CRC.
func AddCRC(content []byte) ([]byte, error) {
	var told C.struct_vicinity_frame
	C.vicinity_add_crc(bytes(content), size(content), &told)
	return frame(&told)
}

// ReadRequest reads a frame, CRC included, as a request. An error is the frame's Fault.
func ReadRequest(frame []byte) (Request, error) {
	var told C.struct_vicinity_request
	if fault := C.vicinity_read_request(bytes(frame), size(frame), &told); fault != 0 {
		return Request{}, Fault(fault)
	}
	mask := Mask{uint32(told.mask_len), uint64(told.mask_value)}
	return Request{uint8(told.link), uint8(told.slots), mask, UID(told.uid)}, nil
}

// ReadResponse reads a frame, CRC included, as a reply. An error is the frame's Fault.
func ReadResponse(frame []byte) (Reply, error) {
	var told C.struct_vicinity_reply
	if fault := C.vicinity_read_response(bytes(frame), size(frame), &told); fault != 0 {
		return Reply{}, Fault(fault)
	}
	return Reply{uint8(told.flags), uint8(told.dsfid), UID(told.uid)}, nil
}

// SlotMask returns the mask of a slot, counted from 0, of an Inventory request: which UIDs answer in it.
func SlotMask(slots uint8, mask Mask, slot uint8) (Mask, error) {
	var told C.struct_vicinity_mask
	if fault := C.vicinity_slot_mask(C.uint32_t(slots), C.uint32_t(mask.Len), C.uint64_t(mask.Value), C.uint32_t(slot),
		&told); fault != 0 {
		return Mask{}, Refusal(fault)
	}
	return Mask{uint32(told.len), uint64(told.value)}, nil
}

// WriteLine returns a line of a log, LF included: 'T', 'R' or 'H' with a frame, which isn't judged; 'S', 'C', 'D', 'N'
// or 'F' alone.
func WriteLine(letter byte, frame []byte) (string, error) {
	return line(letter, frame, 0)
}

// WriteListed returns the line of a UID that the reader lists, LF included.
func WriteListed(uid UID) (string, error) {
	return line('U', nil, uid)
}

func line(letter byte, frame []byte, uid UID) (string, error) {
	var told C.struct_vicinity_line
	if fault := C.vicinity_write_line(C.uint8_t(letter), bytes(frame), size(frame), C.uint64_t(uid), &told); fault != 0 {
		return "", Refusal(fault)
	}
	return C.GoStringN(&told.text[0], C.int(told.len)), nil
}

func frame(told *C.struct_vicinity_frame) ([]byte, error) {
	if told.fault != 0 {
		return nil, Refusal(told.fault)
	}
	written := make([]byte, told.len)
	for index := range written {
		written[index] = byte(told.bytes[index])
	}
	return written, nil
}
