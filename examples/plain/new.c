int circle_area(int radius)
{
    return 3 * radius * radius;
}
