"""Forms of logs, as the manuals of recorders and analysers show them: see tools/check-logs."""

# two words: label 241, SDI 0, data 0, SSM 3; label 203, SDI 0, data 12345 hexadecimal, SSM 3
FIRST, SECOND = 0x60000085, 0xE48D14C1
# the second word with the parity bit 0
EVEN = SECOND ^ 1 << 31
# the second word with the SSM 1, and with the SSM 0
NO_DATA, FAILED = 0x248D14C1, 0x848D14C1
# what the table of the forms has as receivers
NAMES = ("adc", "1", "2", "rx1", "7")
SECONDS, DAY = 10**6, 86400 * 10**6
# 2024-01-02 10:00:00
MORNING = DAY + 36000 * SECONDS


def two(first, second, name="1", words=(FIRST, SECOND)):
    """Two words at these times, in microseconds."""
    return [(first, name, words[0]), (second, name, words[1])]


# of each form: what it is, the options that a user gives, the bytes of the log, and the words that it means
FORMS = [
    ("columns by blanks", [], "0 adc 60000085\n360 adc e48d14c1\n", two(0, 360, "adc")),
    ("a heading as a comment", [], "# TIME CHANNEL WORD\n0 1 60000085\n\n360 1 E48D14C1\n", two(0, 360)),
    ("comma-separated values", [], "time,channel,word\n0,1,60000085\n360,1,e48d14c1\n", two(0, 360)),
    ("tabs", [], "Time\tBus\tHex\r\n0\t1\t60000085\r\n360\t1\te48d14c1\r\n", two(0, 360)),
    ("milliseconds", ["--time", "ms"], "0.000 1 60000085\n0.360 1 e48d14c1\n", two(0, 360)),
    ("seconds", ["--time", "s"], "0.000000 1 60000085\n0.000360 1 e48d14c1\n", two(0, 360)),
    ("quotes around all fields", [], '"Time";"Channel";"Word"\n"0";"1";"60000085"\n"360";"1";"e48d14c1"\n', two(0, 360)),
    ("quotes around a name with blanks", ["--channel", "CH 1=adc"], 'time channel word\n0 "CH 1" 60000085\n360 "CH 1" e48d14c1\n', two(0, 360, "adc")),
    ("a quoted note with separators", [], 'time,channel,word,note\n0,1,60000085,"a, b"\n360,1,e48d14c1,""\n', two(0, 360)),
    ("a unit in round brackets", [], "Time (s),Ch,Data (hex)\n0.000000,1,0x60000085\n0.000360,1,0xE48D14C1\n", two(0, 360)),
    ("a unit in square brackets", [], "Time [ms];Channel;Word\n0.000;1;60000085\n0.360;1;E48D14C1\n", two(0, 360)),
    ("a unit after an underscore", [], "Time_us,Chan,Raw\n0,1,60000085\n360,1,E48D14C1\n", two(0, 360)),
    ("no blank before the unit", [], "Time(ms),Ch,Raw Data\n0,1,60000085\n0.36,1,e48d14c1\n", two(0, 360)),
    ("a time stamp and a channel name", [], "Time Stamp;Channel Name;Raw Word\n0;rx1;60000085\n360;rx1;e48d14c1\n", two(0, 360, "rx1")),
    ("fields of the word", [], "Time (s),Bus,Label (oct),SDI,SSM,Data (hex)\n0,1,241,0,3,00000\n0.00036,1,203,00,11,12345\n", two(0, 360)),
    ("data in binary", [], "Time (us);Ch;Label;SDI;Data (bin);SSM\n0;1;241;00;0000000000000000000;11\n360;1;203;00;0010010001101000101;11\n", two(0, 360)),
    ("data in octal", [], "Time (us);Ch;Label;SDI;Data (oct);SSM\n0;1;241;0;0;3\n360;1;203;0;0221505;3\n", two(0, 360)),
    ("data in decimal", [], "Time (us);Ch;Label;SDI;Data (dec);SSM\n0;1;241;0;0;3\n360;1;203;0;74565;3\n", two(0, 360)),
    ("labels in hexadecimal", [], "Time (us);Ch;Label (hex);SDI;Data (hex);SSM\n0;1;A1;0;0;3\n360;1;0x83;0;12345;3\n", two(0, 360)),
    ("labels without leading zeros", [], "time,ch,label,sdi,ssm,data\n0,1,7,0,0,00000\n", [(0, "1", 0x000000E0)]),
    ("the SSM as NO and NCD", [], "time,ch,label,sdi,ssm,data\n0,1,241,0,NO,0\n360,1,203,0,NCD,12345\n", two(0, 360, words=(FIRST, NO_DATA))),
    ("the SSM as Normal and Fail", [], "time,ch,label,sdi,ssm,data\n0,1,241,0,Normal,0\n360,1,203,0,Fail,12345\n", two(0, 360, words=(FIRST, FAILED))),
    ("the parity as a bit", [], "time,ch,label,sdi,ssm,data,parity\n0,1,241,0,3,0,0\n360,1,203,0,3,12345,0\n", two(0, 360, words=(FIRST, EVEN))),
    ("the parity as odd and even", [], "time;ch;label;sdi;ssm;data;parity\n0;1;241;0;3;0;Odd\n360;1;203;0;3;12345;Even\n", two(0, 360, words=(FIRST, EVEN))),
    ("title lines", [], "Bus Analyzer 4.2\nOperator: Smith\n\nTime (us),Ch,Word\n0,1,60000085\n360,1,e48d14c1\n", two(0, 360)),
    ("title lines of a spreadsheet", [], "Bus Analyzer,,\nFlight,12,\n,,\nTime (us),Ch,Word\n0,1,60000085\n360,1,e48d14c1\n", two(0, 360)),
    ("a title that begins with a digit", [], "2024-01-02 10:00:00 flight 12\n429 words\ntime;ch;word\n0;1;60000085\n360;1;e48d14c1\n", two(0, 360)),
    ("a separator at the end of rows", [], "time;channel;word\n0;1;60000085;\n360;1;e48d14c1;\n", two(0, 360)),
    ("a separator at the end of all lines", [], "time,channel,word,\n0,1,60000085,\n360,1,e48d14c1,\n", two(0, 360)),
    ("empty fields", [], "no,time,ch,parameter,word,remark\n,0,1,,60000085,\n,360,1,,e48d14c1,\n", two(0, 360)),
    ("an empty heading", [], ",time,ch,word\n0,0,1,60000085\n1,360,1,e48d14c1\n", two(0, 360)),
    ("a summary line", [], "time,ch,word\n0,1,60000085\n360,1,e48d14c1\nTotal: 2 words\n", two(0, 360)),
    ("several summary lines", [], "0 1 60000085\n360 1 e48d14c1\n\nWords: 2\nErrors: 0\nEnd of file\n", two(0, 360)),
    ("a summary of a spreadsheet", [], "time;ch;word;\n0;1;60000085;\n360;1;e48d14c1;\n;;;\nTotal;2;;\n", two(0, 360)),
    ("a last line that is cut", [], "time,ch,word,note\n0,1,60000085,-\n360,1,e48d14c1,-\n720,1,60", two(0, 360)),
    ("times of day", [], "10:00:00.000000 1 60000085\n10:00:00.000360 1 e48d14c1\n", two(36000 * SECONDS, 36000 * SECONDS + 360)),
    ("IRIG times", [], "Time,Ch,Word\n002:10:00:00.000000,1,60000085\n002:10:00:00.000360,1,e48d14c1\n", two(MORNING, MORNING + 360)),
    ("ISO 8601", [], "Time (UTC),Ch,Word\n2024-01-02T10:00:00.000000Z,1,60000085\n2024-01-02T10:00:00.000360Z,1,e48d14c1\n", two(MORNING, MORNING + 360)),
    ("a date and a blank", [], "Time,Ch,Word\n2024-01-02 10:00:00.000000,1,60000085\n2024-01-02 10:00:00.000360,1,e48d14c1\n", two(MORNING, MORNING + 360)),
    ("a quoted date between blanks", [], 'Time Ch Word\n"2024-01-02 10:00:00" 1 60000085\n"2024-01-02 10:00:00.00036" 1 e48d14c1\n', two(MORNING, MORNING + 360)),
    ("year first, with slashes", [], "Time;Ch;Word\n2024/01/02 10:00:00;1;60000085\n2024/01/02 10:00:00,00036;1;e48d14c1\n", two(MORNING, MORNING + 360)),
    ("day first, and no row that shows it", ["--dates", "dmy"], "Time;Ch;Word\n02/01/2024 10:00:00;1;60000085\n02/01/2024 10:00:00.00036;1;e48d14c1\n", two(MORNING, MORNING + 360)),
    ("day first, as a row shows", [], "Time;Ch;Word\n13/01/2024 10:00:00;1;60000085\n13/01/2024 10:00:00.00036;1;e48d14c1\n", two(MORNING + 11 * DAY, MORNING + 11 * DAY + 360)),
    ("the name of the month", [], "Time;Ch;Word\n2-Jan-2024 10:00:00;1;60000085\n2-Jan-2024 10:00:00.00036;1;e48d14c1\n", two(MORNING, MORNING + 360)),
    ("seconds with an exponent", [], "Time (s),Ch,Word\n0.00e+00,1,60000085\n3.60e-04,1,e48d14c1\n", two(0, 360)),
    ("hexadecimal counts", ["--tick", "100"], "Time,Ch,Word\n0x0000,1,60000085\n0x0E10,1,e48d14c1\n", two(0, 360)),
    ("labels reversed", ["--reversed", "label"], "0 1 600000a1\n360 1 e48d1483\n", two(0, 360)),
    ("words reversed", ["--reversed", "word"], f"0 1 {int(f'{FIRST:032b}'[::-1], 2):08x}\n360 1 {int(f'{SECOND:032b}'[::-1], 2):08x}\n", two(0, 360)),
    ("a byte order mark, and a comma for a point", ["--time", "ms"], "\ufefftime;ch;word\r\n0,000;1;60000085\r\n0,360;1;e48d14c1\r\n", two(0, 360)),
    ("a channel by its number", ["--channel", "3=adc"], "time,ch,word\n0,3,60000085\n360,3,e48d14c1\n", two(0, 360, "adc")),
    ("a heading in another language", ["--map", "Zeit=time", "--map", "Kanal=channel", "--map", "Wort=word"], "Zeit;Kanal;Wort\n0;1;60000085\n360;1;e48d14c1\n", two(0, 360)),
    ("lines of a system log", [], "Jan  2 10:00:00 box a429[12]: rx1 60000085\nJan  2 10:00:01 box a429[12]: rx1 e48d14c1\n", two(0, SECONDS, "rx1")),
]
