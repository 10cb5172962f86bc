// A rectangle and its area: its class goes into a type unit.
namespace shapes {
class Rectangle {
public:
    Rectangle(int width, int height) : width_(width), height_(height) {}
    int area() const { return width_ * height_; }

private:
    int width_;
    int height_;
};
}

extern "C" int area_of(int width, int height)
{
    shapes::Rectangle rectangle(width, height); // class {...} rectangle
    return rectangle.area();
}
