print("é ß 漢字 😀")
grüße = "Grüße"
print(grüße)
