// A line each 100 milliseconds.
int count = 0;

void setup() {
  Serial.begin(9600);
}

void loop() {
  Serial.print("hello ");
  Serial.println(count);
  count++;
  delay(100);
}
