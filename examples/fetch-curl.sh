#!/bin/sh
# Updates a state from a repository on a server, file by file, and verifies the wanted targets.
# Usage: fetch-curl.sh URL STATE DIR PATH..
# URL/metadata and URL/targets are the folders of the repository. The files are written into the
# folder DIR, which should be new: a file that is there isn't fetched. In the URL a blank, and what
# else of a name may not stand in a path, is written as `%` and two digits. A name with `"`, `\` or a
# byte that isn't printable ASCII isn't fetched. URL begins with `https:`, unless PROTOCOL in the
# environment names another protocol, as `http` for a test on one machine.
set -eu
url=$1
protocol=${PROTOCOL:-https}
shift

# encoded NAME: the name as it stands in a URL.
encoded() {
    printf '%s\n' "$1" | sed 's/%/%25/g; s/ /%20/g; s/#/%23/g; s/</%3C/g; s/>/%3E/g; s/?/%3F/g
        s/\[/%5B/g; s/]/%5D/g; s/\^/%5E/g; s/`/%60/g; s/{/%7B/g; s/|/%7C/g; s/}/%7D/g'
}

# An answer whose length is more than MOST isn't begun. One without a length is cut off a byte
# behind MOST, since curl before 8.4 has no limit for it. The status is that of curl, which fails
# once it can't write.
fetch() {
    {
        ended=$({
            {
                code=0
                curl --fail --silent --globoff --path-as-is --proto "=$protocol" --max-time 600 \
                    --speed-limit 1000 --speed-time 30 --max-filesize "$3" \
                    "$url/$1/$(encoded "$2")" || code=$?
                echo "$code" >&3
            } | head -c "$(($3 + 1))" >&4
        } 3>&1)
    } 4>&1
    return "$ended"
}

. "$(dirname "$0")/fetching.sh"
update "$@"
