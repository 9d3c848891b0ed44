package main

import (
	"net"
	"os"

	"review-front/logs"
)

// tellReady tells whoever started the front that it answers, where he waits for that, as systemd does by Type=notify.
func tellReady(log *logs.Log) {
	at := os.Getenv("NOTIFY_SOCKET")
	if at == "" {
		return
	}
	told, err := net.Dial("unixgram", at)
	if err == nil {
		_, err = told.Write([]byte("READY=1"))
		told.Close()
	}
	if err != nil {
		log.Error("whoever started the front can't be told that it answers", "error", err)
	}
}
