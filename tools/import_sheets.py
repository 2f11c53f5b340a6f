"""Sheets as programs for tables export them, which `import` takes in two tries: the first without an option, and the second by the
command in the hint. Each has its own spelling of the columns."""
NBSP = "\xa0"


def lines(*rows, end="\n"):
    return "".join(row + end for row in rows)


def sheets():
    """The title of each sheet, its bytes, and how many outputs it states."""
    return [(title, text if isinstance(text, bytes) else text.encode(), count) for title, text, count in SHEETS]


def of_long_names():
    """A sheet of names that have one beginning."""
    rows = [f"Left Primary Display,HS,Inertial Reference Unit Pitch Angle {at},IRU Left Primary,{324 + at},any,20,40" for at in range(3)]
    return lines("To,Bus speed,Parameter,From,Label,SDI,Min (ms),Max (ms)", *rows)


def of_many_rows():
    """A sheet whose only text that is no name is below many rows."""
    rows = [f"g{at // 100},HS,s{at},r{at // 100},{at % 256:o},any,100,200" for at in range(240)]
    return lines("Dest,Speed,Signal,Input,Label,SDI,Min ms,Max ms", *rows, "g0,HS,Radio Height,r0,377,any,100,200")


SHEETS = [
    ("merged cells, from Excel", "\ufeff" + lines(
        "LRU,Bus speed,Parameter,Source,Label (octal),SDI,Min (ms),Max (ms)",
        "Left Display,High Speed,Baro Altitude,ADC 1,203,any,31.25,62.5",
        ",,Computed Airspeed,,206,any,62.5,125",
        ",,Mach,,205,any,62.5,125", end="\r\n"), 3),
    ("semicolons and decimal commas, from LibreOffice", lines(
        "Destination;Bit rate;Signal;Source LRU;Label;SDI;Min interval [ms];Max interval [ms]",
        "display;LS;altitude;adc;203;any;31,25;62,5",
        "display;LS;airspeed;adc;206;any;62,5;125"), 2),
    ("an export of DOORS: tabs, identifiers and objects in quotes", lines(
        '"Object Identifier"\t"Parameter"\t"From"\t"To"\t"Speed"\t"Label"\t"SDI"\t"Min ms"\t"Max ms"',
        '"ICD_12"\t"Selected Course"\t"FCU"\t"FMGC 1"\t"LS"\t"100"\t"0"\t"100"\t"200"',
        '"ICD_13"\t"Selected ""Heading"""\t"FCU"\t"FMGC 1"\t"LS"\t"101"\t"0"\t"100"\t"200"'), 2),
    ("a table of Word: line breaks in the headings", lines(
        '"Consumer\nLRU"\t"Bus\nspeed"\t"Parameter\nname"\t"Transmitter"\tLabel\tSDI\t"Minimum\n(ms)"\t"Maximum\n(ms)"',
        "Nav Display\tLS\tTrue Heading\tIRS 1\t314\tany\t25\t50", end="\r\n"), 1),
    ("rates in Hz", lines(
        "Destination,Speed,Parameter,Input,Label,SDI,Min rate (Hz),Max rate (Hz)",
        "fdr,HS,pitch,iru,324,any,20,50",
        "fdr,HS,roll,iru,325,any,20,50"), 2),
    ("both limits in a field", lines(
        "Dest,Baud,Signal,From,Lbl,SDI,Update interval (ms)",
        "fdr,HS,pitch,iru,324,any,20/50",
        "fdr,HS,roll,iru,325,any,20-50"), 2),
    ("both limits with an en dash, and rates of both", lines(
        "To,Speed,Parameter,From,Label,SDI,Update rate (Hz)",
        "EICAS,HS,N1 %,EEC 1,346,any,5–10".replace("-", "\u2013"),
        "EICAS,HS,N2 %,EEC 1,344,any,5–10"), 2),
    ("titles above the heading and notes below the rows", lines(
        "Interface control document,,,,,,,", "Issue 3; 2026-11-30,,,,,,,", ",,,,,,,",
        "Group,Rate,Parameter,From,Label,SDI,Min us,Max us",
        "g,100000,alt,adc,203,any,31250,62500", ",,,,,,,", "Notes:,,,,,,,", "SDI any means all,,,,,,,"), 1),
    ("a byte order mark, empty lines and no option", "\ufeff\r\n\r\n" + lines(
        "GROUP,RATE,SOURCE,RECEIVER,LABEL,SDI,MIN US,MAX US", "g,HS,alt,adc,203,any,31250,62500", end="\r\n"), 1),
    ("line breaks and quotes within fields", lines(
        "Destination,Speed,Parameter,From,Label,SDI,Min ms,Max ms,Remark",
        '"Left\nDisplay",HS,"Baro ""corrected""\naltitude",ADC 1,204,any,31.25,62.5,"see\nnote, 2"'), 1),
    ("one parameter of two units", lines(
        "group,rate,source,receiver,label,sdi,min_ms,max_ms",
        "display,HS,altitude,adc1,203,any,31.25,62.5",
        "display,HS,altitude,adc2,203,1,31.25,62.5"), 2),
    ("real names below our own headings", lines(
        "Group,Rate,Source,Receiver,Label,SDI,Min ms,Max ms",
        "Left Display,HS,Radio Height,RA 1,164,any,25,50",
        "Left Display,HS,Total Air Temperature,ADC 1,211,any,250,500"), 2),
    ("long names of one beginning", of_long_names(), 3),
    ("formulas that keep zeros, and binary SDIs", lines(
        "Consumer,Speed,Signal,Origin,Label,SDI,Min ms,Max ms",
        'mcdu,LS,date,clock,="057",="01",250,500',
        'mcdu,LS,time,clock,="150",="10",250,500'), 2),
    ("no-break spaces round headings and fields", lines(
        f"{NBSP}To{NBSP},Bus{NBSP}speed ,Parameter{NBSP},{NBSP}From,Label,SDI,Min (ms),Max (ms)",
        f"fdr,{NBSP}HS,pitch{NBSP},iru,324,any,20,40"), 1),
    ("lines that end with a carriage return", lines(
        "Dest\tSpeed\tParameter\tSender\tLabel\tSDI\tShortest ms\tLongest ms",
        "fdr\tHS\tpitch\tiru\t324\tany\t20\t40", end="\r"), 1),
    ("further columns between the others", lines(
        "Item,Parameter,Unit,Range,Label,SDI,SSM,From,To,Speed,Resolution,Min msec,Max msec,Bits",
        "1,Baro Altitude,ft,131072,203,x,BNR,ADC 1,FMC 1,12.5 kbit/s,1,31.25,62.5,17"), 1),
    ("merged cells, semicolons, rates and real names at once", lines(
        "LRU;Speed;Parameter;Input;Label;SDI;Min Hz;Max Hz",
        "FWC 1;HS;Engine 1 Oil Pressure;EEC 1A;317;all;2,5;5",
        ";;Engine 1 Oil Temperature;;316;all;1;2",
        ";;;;;;;", "End of table;;;;;;;"), 2),
    ("merged cells below our own headings", lines(
        "group,rate,source,receiver,label,sdi,min_us,max_us",
        "g,HS,alt,adc,203,any,31250,62500",
        ",,mach,,205,any,62500,125000"), 2),
    ("a text that is no name below many rows", of_many_rows(), 241),
]
