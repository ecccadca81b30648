/* The groups of examples/tractor_and_implement.toml, as read_log.c includes them. */
static const Signal eec1[] = {
  {"SPN899", 0, 4, RAW, 0, ""}, {"SPN512", 8, 8, MEASURED, -125, "%"},
  {"SPN513", 16, 8, MEASURED, -125, "%"}, {"SPN190", 24, 16, MEASURED, 0, "1/8 rpm"}};
static const Signal et1[] = {{"SPN110", 0, 8, MEASURED, -40, "degC"}, {"SPN175", 16, 16, MEASURED, -8736, "1/32 degC"}};
static const Signal ccvs[] = {{"SPN70", 2, 2, DISCRETE, 0, ""}, {"SPN84", 8, 16, MEASURED, 0, "1/256 km/h"}};
static const Signal ec1[] = {
  {"SPN188", 0, 16, MEASURED, 0, "1/8 rpm"}, {"SPN539", 16, 8, MEASURED, -125, "%"}, {"SPN544", 152, 16, MEASURED, 0, "Nm"}};
static const Signal etc1[] = {
  {"SPN560", 0, 2, DISCRETE, 0, ""}, {"SPN191", 8, 16, MEASURED, 0, "1/8 rpm"}, {"SPN161", 40, 16, MEASURED, 0, "1/8 rpm"}};
static const Signal ebc1[] = {{"SPN563", 4, 2, DISCRETE, 0, ""}, {"SPN521", 8, 8, MEASURED, 0, "0.4 %"}};
static const Signal tsc1[] = {
  {"SPN695", 0, 2, RAW, 0, ""}, {"SPN898", 8, 16, MEASURED, 0, "1/8 rpm"}, {"SPN518", 24, 8, MEASURED, -125, "%"}};
static const Signal vd[] = {{"SPN244", 0, 32, MEASURED, 0, "1/8 km"}, {"SPN245", 32, 32, MEASURED, 0, "1/8 km"}};
static const Signal process[] = {
  {"COMMAND", 0, 4, RAW, 0, ""}, {"ELEMENT", 4, 12, RAW, 0, ""}, {"DDI", 16, 16, RAW, 0, ""}, {"VALUE", 32, 32, RAW, 0, ""}};

static const Group groups[] = {
  {"EEC1", 61444, 8, eec1, 4}, {"ET1", 65262, 8, et1, 2}, {"CCVS", 65265, 8, ccvs, 2}, {"EC1", 65251, 39, ec1, 3},
  {"VI", 65260, 18, NULL, 0}, {"ETC1", 61442, 8, etc1, 3}, {"EBC1", 61441, 8, ebc1, 2}, {"TSC1", 0, 8, tsc1, 3},
  {"VD", 65248, 8, vd, 2}, {"PROCESS_DATA", 51968, 8, process, 4}, {"VT_TO_ECU", 58880, 8, NULL, 0}, {"ECU_TO_VT", 59136, 8, NULL, 0}};
