int circle_area(int radius)
{
    return 3 * radius * radius;
}

int square_area(int side)
{
    return side * side;
}
