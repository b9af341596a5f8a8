// OpenCV for the benchmark, at 8 bits, on one thread. It dilates without turning the element, so it is handed the turned one; its default border is the rule of
// document 01.
#include "bench.h"

#include <cstring>
#include <opencv2/imgproc.hpp>

static cv::Mat from, to, middle, kernel, about;
static cv::Point anchor, turned;

extern "C" void opencv_prepare(int w, int h, const uint8_t *source, const uint8_t *element) {
    cv::setNumThreads(1);
    from = cv::Mat(h, w, CV_8U, const_cast<uint8_t *>(source)).clone();
    kernel = cv::Mat::zeros(element[1], element[0], CV_8U);
    for (int r = 0; r < element[1]; r++)
        for (int c = 0; c < element[0]; c++) kernel.at<uint8_t>(r, c) = element[4 + r * ((element[0] + 7) / 8) + c / 8] >> (7 - c % 8) & 1;
    cv::flip(kernel, about, -1);
    anchor = cv::Point(element[2], element[3]);
    turned = cv::Point(element[0] - 1 - element[2], element[1] - 1 - element[3]);
}

extern "C" void opencv_run(char way) {
    if (way == 'd') {
        cv::dilate(from, to, about, turned);
        return;
    }
    if (way == 'b' || way == 'c') {
        cv::dilate(from, middle, about, turned);
        cv::erode(middle, to, kernel, anchor);
        if (way == 'b') cv::subtract(to, from, to);
        return;
    }
    cv::erode(from, way == 'e' ? to : middle, kernel, anchor);
    if (way != 'e') cv::dilate(way == 'g' ? from : middle, to, about, turned);
    if (way == 'w') cv::subtract(from, to, to);
    if (way == 'g') cv::subtract(to, middle, to);
}

extern "C" void opencv_result(uint8_t *target) {
    for (int y = 0; y < to.rows; y++) std::memcpy(target + y * to.cols, to.ptr(y), to.cols);
}
