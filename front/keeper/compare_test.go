package keeper

import (
	"errors"
	"os"
	"path/filepath"
	"testing"
)

// TestRoom sees that a comparison isn't begun for which there isn't the memory.
func TestRoom(t *testing.T) {
	path := filepath.Join(t.TempDir(), "meminfo")
	told := "MemTotal:       24104000 kB\nMemFree:          900000 kB\nMemAvailable:    6144 kB\nBuffers: 1 kB\n"
	if err := os.WriteFile(path, []byte(told), 0o600); err != nil {
		t.Fatal(err)
	}
	free := freeMemory(path)
	if free != 6<<20 {
		t.Errorf("there are %d bytes", free)
	}
	if err := roomFor(1024, free); err != nil {
		t.Errorf("of 1,024 cells it is told that %v", err)
	}
	var room *Room
	if err := roomFor(1025, free); !errors.As(err, &room) || room.Free != free || room.Takes != 1025*6<<10 {
		t.Errorf("of one cell more it is told that %v", err)
	}
	if err := roomFor(1<<40, freeMemory(filepath.Join(t.TempDir(), "none"))); err != nil {
		t.Errorf("where nobody knows it is told that %v", err)
	}
}
