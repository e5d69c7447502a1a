# Feeds for the tests of the report: a small town with faults, one with 65,000 findings and one with a million, one with a long trip, one from right to left, and hostile ones.
import math
import os
import random

NAMES = ["stops.txt", "routes.txt", "calendar.txt", "trips.txt", "stop_times.txt", "calendar_dates.txt"]


# Writes the files, given as lists of lines (text or bytes), and gives the folder; the sixth may be left out.
def put(folder, *files):
    os.makedirs(folder)
    for name, lines in zip(NAMES, files):
        with open(os.path.join(folder, name), "wb") as file:
            file.write(b"".join((line if isinstance(line, bytes) else line.encode()) + b"\n" for line in lines))
    return folder


# Rule 2: the most lines of a file, its header among them.
MOST_LINES = 1_048_576

CALENDAR = ["service_id,monday,tuesday,wednesday,thursday,friday,saturday,sunday,start_date,end_date"]
WEEK = "W,1,1,1,1,1,0,0,20260101,20261231"


def clock(seconds):
    return f"{seconds // 3600:02}:{seconds // 60 % 60:02}:{seconds % 60:02}"


# A town of three lines, with faults that a hurried clerk makes.
def town(folder):
    random.seed(4)
    words = ["Alder", "Birch", "Cedar", "Elm", "Fir", "Hazel", "Larch", "Maple", "Oak", "Pine", "Rowan", "Willow"]
    kinds = ["Street", "Square", "Bridge", "Park"]
    stops, lines = ["stop_id,stop_name,stop_lat,stop_lon,location_type,parent_station"], []
    for line in range(3):
        angle, names = line * 1.1 + 0.3, []
        for place in range(14):
            reach, bend = (place - 6.5) * 0.0055, math.sin(place / 3 + line) * 0.004
            lat = 52.52 + reach * math.sin(angle) + bend * math.cos(angle)
            lon = 13.40 + (reach * math.cos(angle) - bend * math.sin(angle)) * 1.6
            name = f"{words[(place * 5 + line * 4) % 12]} {kinds[(place + line) % 4]}"
            stops.append(f"S{line}{place:02},{name},{lat:.5f},{lon:.5f},0,")
            names.append(f"S{line}{place:02}")
        lines.append(names)
    stops += ["MAIN,Main Station,52.52100,13.40200,1,", "E1,Main Station entrance,52.52140,13.40330,2,", "P9,Main Station platform 9,52.52060,13.40400,0,HALL"]
    trips, times = ["route_id,service_id,trip_id"], ["trip_id,arrival_time,departure_time,stop_id,stop_sequence"]
    for line, names in enumerate(lines):
        for run in range(4):
            trip = f"L{line}-{run}"
            trips.append(f"R{line},{'X' if (line, run) == (2, 3) else 'W'},{trip}")
            at = 6 * 3600 + run * 5400 + line * 600
            for place, stop in enumerate(names):
                leave = at + 30
                if (line, run, place) == (0, 1, 8):
                    at, leave = at - 1500, leave - 1500
                if (line, run, place) == (1, 2, 5):
                    leave = at - 300
                stop = "MAIN" if (line, run, place) == (2, 0, 6) else stop
                times.append(f"{trip},{clock(at)},{clock(leave)},{stop},{place + 1}")
                at = max(at, leave) + 150 + (place * 37 + line * 11) % 120
                if (line, run, place) == (0, 1, 8):
                    at += 1500
    trips.append("R1,W,L1-9")
    routes = ["route_id,route_short_name,route_long_name,route_type", "R0,1,North line,0", "R1,2,,0", "R2,,,3"]
    dates = ["service_id,date,exception_type", "W,20261225,2", "H,20261225,1", "W,20261226,2", "W,20261225,1"]
    return put(folder, stops, routes, CALENDAR + [WEEK, "H,0,0,0,0,0,1,1,20261231,20260101"], trips, times, dates)


# A station with nodes and boarding areas: two of the stops have no coordinates, one of them with a finding and a call.
def nodes(folder):
    stops = ["stop_id,stop_name,stop_lat,stop_lon,location_type,parent_station", "MAIN,Main Station,52.52,13.40,1,", "P1,Platform 1,52.521,13.401,0,MAIN"]
    stops += ["P2,Platform 2,52.522,13.402,0,MAIN", "N1,,,,3,MAIN", "N2,,52.523,13.403,3,P1", "B1,,,,4,MAIN", "B2,,52.524,13.404,4,P2"]
    times = ["trip_id,arrival_time,departure_time,stop_id,stop_sequence", "T,08:00:00,08:00:00,P1,1", "T,08:05:00,08:05:00,B1,2", "T,08:10:00,08:10:00,P2,3"]
    return put(folder, stops, ["route_id,route_short_name,route_type", "R,1,3"], CALENDAR + [WEEK], ["route_id,service_id,trip_id", "R,W,T"], times)


# A feed whose only stop has no coordinates, and yet findings.
def nowhere(folder):
    times = ["trip_id,arrival_time,departure_time,stop_id,stop_sequence", "T,08:00:00,08:00:00,B1,1", "T,08:05:00,08:05:00,B1,2"]
    stops = ["stop_id,stop_name,stop_lat,stop_lon,location_type", "B1,,,,4"]
    return put(folder, stops, ["route_id,route_short_name,route_type", "R,1,3"], CALENDAR + [WEEK], ["route_id,service_id,trip_id", "R,W,T"], times)


# Every line of stop_times has a finding: 65,000 in all, on 32,500 trips of two lines.
def many(folder, trips=32500, count=5000):
    wide = math.isqrt(count)
    stops = ["stop_id,stop_name,stop_lat,stop_lon"] + [f"S{n},Stop {n},{50 + n % wide * 2.5 / wide:.6f},{8 + n // wide * 2.5 / wide:.6f}" for n in range(count)]
    names = ["route_id,service_id,trip_id"] + [f"R,W,T{n}" for n in range(trips)]
    times = ["trip_id,arrival_time,departure_time,stop_id,stop_sequence"]
    for n in range(trips):
        at = 6 * 3600 + n % 3600
        # Rule 27 on the first line, rule 29 on the second.
        times += [f"T{n},{clock(at + 60)},{clock(at + 30)},S{n % count},1", f"T{n},{clock(at)},{clock(at + 90)},S{(n + 1) % count},2"]
    return put(folder, stops, ["route_id,route_short_name,route_type", "R,1,3"], CALENDAR + [WEEK], names, times)


# The same with as many lines, and as many stops, as a file may have.
def million(folder):
    return many(folder, (MOST_LINES - 1) // 2, MOST_LINES - 1)


MARKUP = [
    "</script><script>window.broken=1</script>", "<img src=x onerror=window.broken=1>", "<!--<script>", "]]>&lt;b&gt;&amp;",
    "'\"><svg onload=window.broken=1>", "${window.broken=1}{{data}}", "\u2028window.broken=1\u2029", "javascript:window.broken=1",
    "</style><style>*{display:none}", "\u202eesrever\u0000\x1b[31m\\", "__proto__", "constructor",
]


# A value as a field.
def quoted(value):
    return '"' + value.replace('"', '""') + '"'


# A folder's name that would like to be markup.
HOSTILE_NAME = "hostile<img src=x onerror=window.broken=1>&amp;'\""


# Markup and script wherever a feed has room for them, with findings on each line, so that all of it is shown.
def hostile(folder):
    stops, times = ["stop_id,stop_name,stop_lat,stop_lon,location_type,parent_station"], ["trip_id,arrival_time,departure_time,stop_id,stop_sequence"]
    trips, routes = ["route_id,service_id,trip_id"], ["route_id,route_short_name,route_long_name,route_type"]
    for n, value in enumerate(MARKUP):
        field = quoted(value)
        stops += [f"{field},{field},{n},{n * 2},0,{quoted(value + '!')}"]
        routes += [f"{field},,,3"]
        trips += [f"{quoted(value + '?')},{field},{field}"]
        times += [f"{field},08:0{n % 10}:00,08:00:00,{field},1", f"{field},07:00:00,08:00:00,{field},2", f"{field},,,{field},2"]
    dates = ["service_id,date,exception_type"] + [f"{quoted(value + '.')},20260101,{kind}" for value in MARKUP for kind in [1, 2]]
    put(folder, stops, routes, CALENDAR + [WEEK], trips, times, dates)
    open(os.path.join(folder, "<svg onload=window.broken=1>.txt"), "w").close()
    return folder


# Refused at a line of markup, and not by a word that is plain.
def hostile_refused(folder):
    return put(folder, ["stop_id,stop_name,stop_lat,stop_lon", "A," + MARKUP[0] + ",<b>1</b>,2"], ["route_id"], CALENDAR, ["x"], ["x"])


# Refused at a byte that isn't UTF-8, with more of them and markup around it.
def hostile_bytes(folder):
    return put(folder, ["stop_id,stop_name,stop_lat,stop_lon", b"\xc3\xa9<b>,<i>\xed\xa0\x80<i>\xff" + MARKUP[0].encode() + b",1,2"], ["route_id"], CALENDAR, ["x"], ["x"])


# One trip whose lines stand in another order than their sequence: the third departs late, so the fourth arrives before it.
def shuffled(folder):
    times = ["trip_id,arrival_time,departure_time,stop_id,stop_sequence"]
    times += ["T,08:20:00,08:50:00,C,30", "T,08:10:00,08:05:00,B,20", "T,08:40:00,08:41:00,D,40", "T,08:00:00,08:01:00,A,10"]
    stops = ["stop_id,stop_name,stop_lat,stop_lon"] + [f"{name},{name},{n},{n}" for n, name in enumerate("ABCD")]
    return put(folder, stops, ["route_id,route_short_name,route_type", "R,1,3"], CALENDAR + [WEEK], ["route_id,service_id,trip_id", "R,W,T"], times)


# Lines whose letters go from right to left: beside digits, in marks with a comma, in two scripts, in a field that is marked and beside it.
def leftward(folder):
    stops = ["stop_id,stop_name,stop_lat,stop_lon,note", "ב1,רחוב,31.5,34.75,שלום", 'ב1,"שלום, עולם",31.5,34.75,7', "ب2,محطة,31.6,34.80,12", "ب2,12 رقم,31.6,34.80,א"]
    return put(folder, stops, ["route_id,route_long_name,route_type", "קו 5,,3"], CALENDAR + [WEEK], ["route_id,service_id,trip_id", "קו 5,ש,ת"], ["trip_id,arrival_time,departure_time,stop_id,stop_sequence", "ת,8:00:00,8:00:00,ב1,1", "ת,7:00:00,7:10:00,אין,2"])


# One trip with as many lines as a file may have, four a second; one of them arrives an hour before the line above it departs.
FALLS = 1_000_000


def trip_time(place):
    return clock(20_000 + place // 4 - (3600 if place == FALLS else 0))


def long_trip(folder):
    calls = [f"T,{trip_time(place)},{trip_time(place)},A,{place}" for place in range(1, MOST_LINES)]
    return put(folder, ["stop_id,stop_name,stop_lat,stop_lon", "A,Alder,1,2"], ["route_id,route_short_name,route_type", "R,1,3"], CALENDAR + [WEEK],
               ["route_id,service_id,trip_id", "R,W,T"], ["trip_id,arrival_time,departure_time,stop_id,stop_sequence"] + calls)
