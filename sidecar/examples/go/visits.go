// Counts visits of pages. The sidecar beside it calls it by HTTP, so it needs only Go's own packages.
//
//	go run visits.go 9000
//	durkenzo-sidecar --application http://127.0.0.1:9000 --clients 127.0.0.1:7480
//	curl -d '' http://127.0.0.1:7480/key/home
package main

import (
	"encoding/json"
	"fmt"
	"io"
	"log"
	"net/http"
	"os"
	"strings"
	"sync"
)

// The counts of each shard that is here, by page. Calls of different shards come at the same time.
var (
	lock   sync.Mutex
	shards = map[string]map[string]int{}
)

// answer returns a status and a body. It may be called again if the sidecar didn't get its answer.
func answer(shard, handler string, headers http.Header, body []byte) (int, []byte) {
	lock.Lock()
	defer lock.Unlock()
	counts, isHere := shards[shard]
	switch handler {
	case "prepare_add":
		return http.StatusOK, nil
	case "add": // The shard comes here. What was kept of it before is of no use any more.
		counts = map[string]int{}
		if headers.Get("Durkenzo-Came") == "handed" {
			if err := json.Unmarshal(body, &counts); err != nil {
				return http.StatusInternalServerError, []byte(err.Error())
			}
		}
		shards[shard] = counts
		return http.StatusOK, nil
	case "drop":
		delete(shards, shard)
		return http.StatusOK, nil
	case "prepare_drop", "call":
		if !isHere { // This process was begun anew: the sidecar adds the shard, and calls again.
			return http.StatusMisdirectedRequest, nil
		}
	default:
		return http.StatusNotFound, nil
	}
	if handler == "call" { // A client's call. One call of a shard comes at a time.
		page := headers.Get("Durkenzo-Key")
		counts[page]++
		return http.StatusOK, []byte(fmt.Sprint(counts[page]))
	}
	// The next owner gets what this returns. The shard stays as it is until it is dropped.
	bytes, err := json.Marshal(counts)
	if err != nil {
		return http.StatusInternalServerError, []byte(err.Error())
	}
	return http.StatusOK, bytes
}

func main() {
	http.HandleFunc("/shard/", func(w http.ResponseWriter, r *http.Request) {
		parts := strings.Split(r.URL.Path, "/")
		body, err := io.ReadAll(r.Body)
		if err != nil || len(parts) != 4 {
			w.WriteHeader(http.StatusBadRequest)
			return
		}
		status, bytes := answer(parts[2], parts[3], r.Header, body)
		w.WriteHeader(status)
		w.Write(bytes)
	})
	log.Fatal(http.ListenAndServe("127.0.0.1:"+append(os.Args, "9000")[1], nil))
}
