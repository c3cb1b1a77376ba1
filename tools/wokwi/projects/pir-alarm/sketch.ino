void setup() {
  Serial.begin(9600);
  pinMode(2, INPUT);
  pinMode(13, OUTPUT);
}

bool before = false;
void loop() {
  bool motion = digitalRead(2);
  digitalWrite(13, motion);
  if (motion != before) Serial.println(motion ? "Motion detected!" : "Motion ended!");
  before = motion;
}
