static int people = 1;

void set_people(int number)
{
    people = number;
}

int share(int amount)
{
    return amount / people;
}
